"""`move`, with file systems in memory: they are mounted in a namespace of this test's own."""

import contextlib
import os
import subprocess
import unittest
from unittest import mock

from support import CommandCase, state_of

import releasing


@unittest.skipIf(os.geteuid() != 0, "needs root")
class MoveCase(CommandCase):
    def setUp(self):
        super().setUp()
        self.registry.reset(is_served=True)
        self.new = self.registry.root / "new"
        self.new.mkdir()
        subprocess.run(["mount", "-t", "tmpfs", "-o", "size=16m", "tmpfs", self.new], check=True)
        self.addCleanup(self.unmount)

    def unmount(self) -> None:
        self.registry.kill_servers()
        for folder in (self.place.folder, self.new):
            while os.path.ismount(folder):
                subprocess.run(["umount", folder], check=True)

    def mount(self) -> None:
        """Moves the new file system to the registry's folder."""
        subprocess.run(["mount", "--bind", self.new, self.place.folder], check=True)

    def first_half(self) -> str:
        printed = self.run_command("move", str(self.new), "--yes", status=3)
        self.assertIn(f"mount the new disk at {self.place.folder} now", printed)
        return printed

    def test_both_halves(self):
        printed = self.first_half()
        self.assertIn("to /etc/fstab", printed)
        self.assertIsNone(self.place.process())
        aside = next(self.place.folder.parent.glob("avroreg-before-*"))
        self.assertEqual(state_of(aside / "registry.db"), self.registry.old)
        self.assertIn("mount the new disk at", self.run_command("continue", status=3))
        self.mount()
        self.assertIn("writes resumed", self.run_command("continue"))
        self.assertEqual(state_of(self.place.database), self.registry.old)
        self.assertEqual((self.new / "registry.db").stat().st_ino, self.place.database.stat().st_ino)
        self.assertEqual(self.registry.register("new"), 7)
        self.place.stop()
        self.place.start()
        self.assertTrue(aside.exists())

    def test_without_the_mount_nothing_starts(self):
        """As after a reboot without the line in fstab."""
        self.first_half()
        self.mount()
        self.run_command("continue")
        self.place.stop()
        subprocess.run(["umount", self.place.folder], check=True)
        self.refused("doctor", text="disk-not-mounted")

    def test_undo_before_and_after_the_mount(self):
        self.first_half()
        self.mount()
        self.refused("undo", "--yes", text=f"umount {self.place.folder}")
        subprocess.run(["umount", self.place.folder], check=True)
        self.run_command("undo", "--yes")
        self.assertEqual(state_of(self.place.database), self.registry.old)
        self.assertIsNotNone(self.place.process())
        self.assertEqual(os.listdir(self.new), [])
        self.assertEqual(list(self.place.folder.parent.glob("avroreg-before-*")), [])

    def test_undo_is_refused_once_the_new_disk_is_served(self):
        self.first_half()
        self.mount()

        def install():
            from avroreg_admin import move
            move.Move.resume = lambda self: os.open("/nonexistent/file", os.O_RDONLY)
        self.run_command("continue", status=3, prepare=install)
        self.refused("undo", "--yes", text="avroreg has served the new disk")
        self.registry.register("meanwhile")
        self.run_command("continue")
        self.assertEqual(self.registry.register("meanwhile"), 7)

    def test_killed_at_each_rename_sync_and_new_folder(self):
        for ending in ("continue", "undo"):
            for number in range(1, 60, 9):
                with contextlib.ExitStack() as stack:
                    stack.callback(self.again)
                    status = self.killed(number)
                    if status == 3 and number > 1 and not self.was_killed:
                        break
                    if not self.place.job_file.exists():
                        self.assertEqual(state_of(self.place.database), self.registry.old)
                        continue
                    if ending == "undo":
                        self.run_command("undo", "--yes")
                    else:
                        self.run_command("continue", status=3)
                        self.mount()
                        self.run_command("continue")
                    self.assertEqual(state_of(self.place.database), self.registry.old)
                    self.assertIsNotNone(self.place.process())

    def test_on_a_lost_terminal_both_halves_go_on(self):
        self.enterContext(mock.patch.dict(os.environ, AVROREG_REAL=os.environ["AVROREG"]))
        for first, second in ((1, 5), (2, 6), (3, 7)):
            with self.subTest(first=first):
                releasing.make(self.registry.root)
                self.assertEqual(releasing.lose_terminal(self.registry.root, first, "move", str(self.new), "--yes"), 3)
                self.mount()
                self.assertEqual(releasing.lose_terminal(self.registry.root, second, "continue"), 0)
                self.assertFalse(self.place.job_file.exists() or self.place.paused_file.exists())
                self.assertEqual(state_of(self.place.database), self.registry.old)
                self.assertIsNotNone(self.place.process())
            self.again()

    def again(self) -> None:
        self.unmount()
        self.registry.reset(is_served=True)
        self.new.mkdir(exist_ok=True)
        subprocess.run(["mount", "-t", "tmpfs", "-o", "size=16m", "tmpfs", self.new], check=True)

    def killed(self, number: int) -> int:
        from support import forked

        from kills import KILLED, Counter
        status, printed = forked(["move", str(self.new), "--yes"], Counter(self.registry.root.parent / "effects", number).install)
        self.was_killed = status == KILLED
        self.assertIn(status, (3, KILLED), printed)
        return status

    def test_folders_that_can_not_be_used(self):
        self.refused("move", str(self.registry.root), "--yes", text="is no mount point")
        (self.new / "file").touch()
        self.refused("move", str(self.new), "--yes", text="isn't an empty disk of root")
        (self.new / "file").unlink()
        subprocess.run(["mount", "-o", "remount,size=64k", self.new], check=True)
        self.refused("move", str(self.new), "--yes", text="MB are needed")
        self.assertIsNotNone(self.place.process())


if __name__ == "__main__":
    unittest.main()
