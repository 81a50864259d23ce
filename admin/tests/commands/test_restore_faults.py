"""`restore`, `continue` and `undo`: places that can't be used, each rename failing, and disks that fill."""

import contextlib
import errno
import os
import shutil
import signal
import subprocess
import time
import unittest
from pathlib import Path
from unittest import mock

from restoring import RESTORE, RestoreCase
from support import forked


class PlaceCase(RestoreCase):
    def test_a_link_is_refused(self):
        """Root would move the link's target, and put the registry in its place."""
        for owner in (12345, 0) if os.geteuid() == 0 else (None,):
            self.registry.reset()
            target = self.registry.root / "secret"
            target.write_bytes(b"root's")
            self.place.database.unlink()
            self.place.database.symlink_to(target)
            if owner is not None:
                os.chown(self.place.database, owner, owner, follow_symlinks=False)
            self.refused(*RESTORE, "--greatest-id", "6", text="is a link")
            self.assertEqual(target.read_bytes(), b"root's")
            self.assertTrue(self.place.database.is_symlink())

    def test_a_link_that_is_planted_on_the_way(self):
        target = self.registry.root / "secret"
        target.write_bytes(b"root's")

        def plant():
            from avroreg_admin import drafting
            finish = drafting.swap.finish_draft
            drafting.swap.finish_draft = lambda folder, ready: (finish(folder, ready), self.place.database.unlink(), self.place.database.symlink_to(target))
        self.refused(*RESTORE, text="is a link", status=3, prepare=plant)
        self.assertEqual(target.read_bytes(), b"root's")
        self.place.database.unlink()
        (self.place.database).write_bytes(self.registry.before["registry.db"])
        self.run_command("undo", "--yes")
        self.assertEqual((target.read_bytes(), self.registry.files), (b"root's", self.registry.before))

    def test_a_file_that_another_avroreg_has_open(self):
        other = subprocess.Popen([os.environ["AVROREG"], "serve", "--db", self.place.database, "--port", str(self.place.settings.port + 1)],
                                 stderr=subprocess.DEVNULL)
        try:
            while self.place.log.stat().st_size == 0 or not self.is_locked():
                time.sleep(0.01)
            self.refused(*RESTORE, text="stop it", status=3)
            self.assertTrue(self.place.database.exists())
        finally:
            other.kill()
            other.wait()
        self.run_command("continue")
        self.restored()

    def is_locked(self) -> bool:
        return any(f":{self.place.database.stat().st_ino} " in line for line in Path("/proc/locks").read_text().splitlines())

    def test_a_job_keeps_others_out(self):
        self.fail_at(4)
        for words in (RESTORE, ("lost-ids", "--count", "1", "--yes")):
            self.refused(*words, text="is unfinished")
        self.run_command("undo", "--yes")
        self.unchanged()

    def test_a_damaged_mark(self):
        for ending in ("restored", "undone"):
            self.registry.reset()
            self.place.mark_file.write_text("{")
            if ending == "undone":
                self.fail_at(4, greatest=True)
                self.run_command("undo", "--yes")
                self.unchanged()
                self.assertEqual(self.place.mark_file.read_text(), "{")
            else:
                self.run_command(*RESTORE, "--greatest-id", "6")
                self.restored()

    def test_what_would_be_lost(self):
        printed = self.run_command("restore", "--newest", "--difference-only", status=1)
        self.assertIn("version 1 of s-d, id 4, is lost", printed)
        self.assertIn("mode of s-c: it was READONLY, and is not set", printed)
        self.unchanged()

    def test_a_copy_of_a_file_of_root_goes_with_the_job(self):
        from avroreg_admin import incoming
        hidden = self.registry.root / "hidden.db"
        shutil.copyfile(self.backup_file(), hidden)

        def install():
            real = incoming.can_read
            incoming.can_read = lambda file: False
            incoming.can_read.__module__, incoming.can_read.__qualname__ = real.__module__, real.__qualname__
        self.run_command("restore", "--file", str(hidden), "--greatest-id", "6", "--yes", prepare=install)
        self.restored()
        self.assertFalse((self.place.jobs / "incoming").exists())


class FaultCase(RestoreCase):
    def test_each_rename_fails_then_continue(self):
        """F, its log, its mark, and then the draft are renamed."""
        for number in (1, 2, 3, 4):
            for is_lasting in (False, True):
                self.registry.reset()
                printed = self.fail_at(number, is_lasting)
                self.assertIn("Input/output error", printed)
                self.assertIn("avroreg-admin continue", printed)
                self.assertEqual(self.place.database.exists(), number == 1)
                self.run_command("continue")
                self.restored()
                self.assertEqual({name: (self.kept() / name).read_bytes() for name in self.registry.before}, self.registry.before)

    def test_each_rename_fails_then_undo(self):
        for number in (1, 2, 3, 4):
            self.registry.reset()
            self.fail_at(number)
            self.run_command("undo", "--yes")
            self.unchanged()
            self.place.start()

    def test_another_program_makes_a_new_file_meanwhile(self):
        self.fail_at(4)
        self.place.database.write_bytes(b"another program's")
        for words in (("continue",), ("undo", "--yes")):
            printed = self.run_command(*words, status=3 if words[0] == "continue" else 2)
            self.assertIn("another program made", printed)
            self.assertEqual(self.place.database.read_bytes(), b"another program's")
        self.place.database.unlink()
        self.run_command("undo", "--yes")
        self.unchanged()

    def signalled(self, number: int, step: str = "draft") -> tuple[int, str]:
        """Restores with this signal during this step."""
        def install():
            from avroreg_admin import replacement
            effect = getattr(replacement.Replacement, step)
            setattr(replacement.Replacement, step, lambda self: (os.kill(os.getpid(), number), effect(self))[1])
        return forked(list(RESTORE), install)

    def test_a_signal_ends_it_after_the_step(self):
        for number in (signal.SIGTERM, signal.SIGINT):
            self.registry.reset()
            status, printed = self.signalled(number)
            self.assertEqual(status, 3)
            self.assertIn("stopped before step 4 of 7", printed)
            self.assertEqual(self.registry.files, self.registry.before)
            self.run_command("continue")
            self.restored()

    def test_a_lost_terminal_does_not_leave_the_registry_down(self):
        for step in ("stop", "draft", "swap", "start"):
            self.registry.reset(is_served=True)
            status, printed = self.signalled(signal.SIGHUP, step)
            self.assertEqual(status, 0, printed)
            self.restored()

    def test_undo_is_refused_once_the_registry_has_responded(self):
        def install():
            from avroreg_admin import replacement
            replacement.Replacement.resume = mock.Mock(side_effect=OSError(errno.EIO, "Input/output error"))
        self.run_command(*RESTORE, status=3, prepare=install)
        self.refused("undo", "--yes", text="has served the new file")
        self.assertIsNotNone(self.place.process())
        self.run_command("continue")
        self.restored()

    def test_a_registry_that_never_responds_is_undone(self):
        port = self.place.settings.port
        with mock.patch.dict(os.environ, {"AVROREG": self.script("no-server", f'[ "$1" != serve ] || exit 2; exec {os.environ["AVROREG"]} "$@"')}):
            self.refused(*RESTORE, text="step 5 of 7", status=3)
        self.run_command("undo", "--yes")
        self.unchanged()
        self.assertEqual(self.place.settings.port, port)
        self.place.start()

    @unittest.skipIf(os.geteuid() != 0, "needs root")
    def test_a_disk_that_fills_on_the_way(self):
        """A small file system, with another program's file on it. At each size, the restore is refused, or it stops and goes on
        once there is space, or it is undone."""
        outcomes = set()
        for ending in ("continue", "undo"):
            for free in range(4, 150, 29):
                self.registry.reset()
                with self.small_disk() as other:
                    subprocess.run(["dd", "if=/dev/zero", f"of={other}", "bs=1M", "status=none"], stderr=subprocess.DEVNULL)
                    os.truncate(other, max(other.stat().st_size - free * 4096, 0))
                    # the plan's check of the space is tested elsewhere
                    status, printed = forked(list(RESTORE), lambda: setattr(shutil, "disk_usage", lambda _: mock.Mock(free=1 << 40)))
                    self.assertNotIn("raceback", printed)
                    outcomes.add(status)
                    if status in (1, 2):
                        self.assertEqual(self.registry.files, self.registry.before)
                    if status == 3:
                        self.assertIn("No space left on device", printed)
                        other.unlink()
                        self.run_command(ending, "--yes")
                        self.unchanged() if ending == "undo" else self.restored()
                    if status == 0:
                        self.restored()
                    self.place.stop()
        self.assertEqual(outcomes & {0, 3}, {0, 3})

    @contextlib.contextmanager
    def small_disk(self):
        """The registry's folder on a file system of 4 MB. Gives the name of another file there."""
        away = self.registry.root / "away"
        shutil.copytree(self.place.folder, away)
        subprocess.run(["mount", "-t", "tmpfs", "-o", "size=4m", "tmpfs", self.place.folder], check=True)
        try:
            shutil.copytree(away, self.place.folder, dirs_exist_ok=True)
            from avroreg_admin import marking
            marking.put(str(self.place.database), self.place.registry["place"])
            yield self.place.folder / "other"
        finally:
            self.registry.kill_servers()
            subprocess.run(["umount", self.place.folder], check=True)

    def test_a_full_disk(self):
        """The draft doesn't fit. Nothing is lost, and `continue` goes on once there is space."""
        def install():
            from avroreg_admin import drafting
            drafting.hot_copy.copy_file = mock.Mock(side_effect=OSError(errno.ENOSPC, "No space left on device"))
        small = mock.Mock(free=1 << 12)
        self.refused(*RESTORE, text="too little space", prepare=lambda: setattr(shutil, "disk_usage", lambda _: small))
        self.unchanged()
        self.refused(*RESTORE, text="No space left on device", status=2, prepare=install)
        self.unchanged()


if __name__ == "__main__":
    unittest.main()
