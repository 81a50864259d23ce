"""Each rule of the guard: what it refuses, and what it lets through."""

import os
import shutil
import unittest

from support import RegistryCase, log_of

from avroreg_admin import guard


class GuardCase(RegistryCase):
    def finding(self) -> str | None:
        refusal, self.warnings = guard.examine("default", str(self.root))
        self.commands = refusal.commands if refusal else ()
        return refusal and refusal.id

    def test_a_registry_as_it_was_left_starts(self):
        self.assertIsNone(self.finding())
        self.assertEqual(self.warnings, [])

    def test_an_unfinished_job_keeps_the_service_down(self):
        self.write(self.state / "job.json", {"id": "1", "command": "restore", "person": "ops"})
        self.assertEqual(self.finding(), "unfinished")
        self.assertEqual(self.commands, ("avroreg-admin continue", "avroreg-admin undo"))

    def test_the_start_of_the_job_itself_is_let_through(self):
        self.write(self.state / "job.json", {"id": "1", "command": "restore", "person": "ops"})
        self.note(job="1")
        self.assertIsNone(self.finding())
        self.note(job="2")
        self.assertEqual(self.finding(), "unfinished")

    def test_an_unfinished_job_comes_before_every_other_rule(self):
        self.write(self.state / "job.json", {"id": "1", "command": "restore", "person": "ops"})
        for path in (self.database, self.mark, self.state / "registry.json"):
            path.unlink()
            self.assertEqual(self.finding(), "unfinished")

    def test_without_a_note_of_root_nothing_starts(self):
        (self.state / "registry.json").unlink()
        self.assertEqual(self.finding(), "no-registry")
        self.assertEqual(self.commands[0], "avroreg-admin accept --reason TEXT")
        self.database.unlink()
        self.assertEqual(self.finding(), "no-registry")
        self.assertEqual(self.commands[0], "avroreg-admin init")

    def test_a_folder_without_the_mark_is_a_missing_mount(self):
        self.mark.unlink()
        self.assertEqual(self.finding(), "disk-not-mounted")
        shutil.rmtree(self.folder)
        self.assertEqual(self.finding(), "disk-not-mounted")

    def test_a_mark_of_another_place_is_a_wrong_folder(self):
        self.note(place="there")
        self.assertEqual(self.finding(), "disk-not-mounted")

    def test_a_damaged_mark_is_as_a_missing_one(self):
        for text in ("", "{", "[]", "{}", '{"place": 1}'):
            self.mark.write_text(text)
            self.assertEqual(self.finding(), "disk-not-mounted")

    def test_a_mark_that_is_a_link_or_a_pipe_is_not_followed(self):
        self.mark.rename(self.folder / "other")
        self.mark.symlink_to(self.folder / "other")
        self.assertRaises(OSError, self.finding)
        self.mark.unlink()
        os.mkfifo(self.mark)
        self.assertEqual(self.finding(), "disk-not-mounted")

    def test_a_missing_or_empty_file_is_refused(self):
        self.database.write_bytes(b"")
        self.assertEqual(self.finding(), "file-missing")
        self.database.unlink()
        self.assertEqual(self.finding(), "file-missing")

    def test_another_file_in_its_place_is_refused(self):
        self.database.rename(self.folder / "old")
        shutil.copy2(self.folder / "old", self.database)
        self.assertEqual(self.finding(), "file-replaced")

    def test_the_copy_that_before_stop_saved_is_the_first_way_back(self):
        self.note(rescued="/x/rescued-1.db")
        self.database.unlink()
        self.assertEqual(self.finding(), "file-missing")
        self.assertEqual(self.commands[0], "avroreg-admin rescue")

    def test_a_second_hard_link_is_refused(self):
        os.link(self.database, self.folder / "second")
        self.assertEqual(self.finding(), "cannot-open")

    def test_a_journal_with_bytes_is_refused(self):
        journal = self.folder / "registry.db-journal"
        journal.write_bytes(b"")
        self.assertIsNone(self.finding())
        journal.write_bytes(b"x")
        self.assertEqual(self.finding(), "cannot-open")

    @unittest.skipUnless(os.geteuid() == 0, "needs root")
    def test_another_owner_is_refused(self):
        os.chown(self.database, 12345, -1)
        self.assertEqual(self.finding(), "cannot-open")

    def test_a_link_in_place_of_the_file_is_refused(self):
        self.database.rename(self.folder / "old")
        self.database.symlink_to("old")
        self.note(inode=os.lstat(self.database).st_ino)
        self.assertEqual(self.finding(), "cannot-open")

    def test_a_missing_log_is_refused(self):
        self.log.unlink()
        self.assertEqual(self.finding(), "log-missing")
        self.note(state="running", size=None, time=None)
        self.assertEqual(self.finding(), "log-missing")

    def test_a_log_that_need_not_be_there_may_be_missing(self):
        self.log.unlink()
        self.note(log=False)
        self.assertIsNone(self.finding())

    def test_if_the_file_changed_after_the_stop_another_avroreg_copied_the_log(self):
        self.log.unlink()
        os.truncate(self.database, 5)
        self.assertIsNone(self.finding())
        self.assertEqual(len(self.warnings), 1)

    def test_a_running_mark_does_not_excuse_a_missing_log(self):
        self.note(state="running")
        self.log.unlink()
        os.truncate(self.database, 5)
        self.assertEqual(self.finding(), "log-missing")

    def test_a_short_log_is_of_a_kill_right_after_the_start(self):
        for size in (0, 8, 31, 32, 41, 55):
            self.log.write_bytes(b"\xff" * size)
            self.assertIsNone(self.finding())

    def test_an_invalid_header_is_refused(self):
        self.log.write_bytes(b"\xff" + self.log.read_bytes()[1:])
        self.assertEqual(self.finding(), "log-damaged")
        self.assertEqual(self.commands[0], "avroreg-admin repair")

    def test_a_break_before_later_commits_is_refused(self):
        log = bytearray(log_of([True, True, False, True, True]))
        log[32 + 24] ^= 1
        self.log.write_bytes(log)
        self.assertEqual(self.finding(), "log-damaged")
        self.assertNotIn("avroreg-admin repair", self.commands)

    def test_a_torn_last_transaction_is_let_through(self):
        log = bytearray(log_of([True, True, False, True]))
        log[-600] ^= 1
        self.log.write_bytes(log)
        self.assertIsNone(self.finding())

    def test_little_space_is_a_warning(self):
        floor = guard.FLOOR_BYTES
        guard.FLOOR_BYTES = 1 << 60
        try:
            self.assertIsNone(self.finding())
        finally:
            guard.FLOOR_BYTES = floor
        self.assertIn("disk-full", self.warnings[0])

    def test_another_registry_has_its_name_in_the_commands(self):
        refusal, _ = guard.examine("orders", str(self.root))
        self.assertEqual(refusal.commands[0], "avroreg-admin init --registry orders")


if __name__ == "__main__":
    unittest.main()
