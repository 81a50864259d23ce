"""`folder`: a registry that no unit serves, such as a container's."""

import os
import subprocess
import sys
import unittest

from support import CommandCase, state_of

from avroreg_admin import swap

PYTHON = "/usr/bin/python3"


class FolderCase(CommandCase):
    """The folder of the class's registry, without its marks and its place."""

    def setUp(self):
        super().setUp()
        self.registry.reset()
        self.place.mark_file.unlink()
        self.file, self.copy = self.place.database, self.registry.root / "copy.db"
        self.backup = next(self.place.backups.glob("registry-*.db"))

    def folder(self, *words, status: int = 0, **more) -> str:
        return self.run_command("folder", *map(str, words), "--program", os.environ["AVROREG"], status=status, **more)

    def serve(self) -> subprocess.Popen:
        server = subprocess.Popen([os.environ["AVROREG"], "serve", "--db", self.file, "--port", str(self.place.settings.port)], stderr=subprocess.DEVNULL)
        self.addCleanup(lambda: (server.kill(), server.wait()))
        while self.place.ask("GET", "/config")[0] != 200:
            self.assertIsNone(server.poll())
        return server

    def test_a_served_registry_is_copied_and_not_replaced(self):
        server = self.serve()
        self.folder("backup", self.file, self.copy)
        self.assertEqual(state_of(self.copy), self.registry.old)
        self.assertEqual(self.copy.stat().st_mode & 0o777, 0o600)
        self.assertIn("stop it", self.folder("restore", self.backup, self.file, "--yes", status=2))
        self.assertIsNone(server.poll())
        self.assertIn("exists already", self.folder("backup", self.file, self.copy, status=1))

    @unittest.skipIf(os.geteuid() != 0, "needs root")
    def test_a_volume_that_its_owner_can_not_reach(self):
        """A container's volume belongs to the container's user, in folders that only root may enter."""
        user = 12345
        if subprocess.run(["cat", PYTHON, swap.__file__, os.environ["AVROREG"]], user=user, group=user, cwd="/", stdout=subprocess.DEVNULL).returncode:
            self.skipTest("another user can't read the modules")
        for path in (self.place.folder, *self.place.folder.rglob("*")):
            os.chown(path, user, user)
        self.place.folder.parent.chmod(0o700)
        prepare = lambda: setattr(sys, "executable", PYTHON)  # noqa: E731
        self.folder("backup", self.file, self.copy, prepare=prepare)
        self.assertEqual((self.copy.stat().st_uid, state_of(self.copy)), (0, self.registry.old))
        printed = self.folder("restore", self.backup, self.file, "--yes", prepare=prepare)
        self.assertIn(f"{self.file} is the backup, with 6 schemas", printed)
        self.assertNotIn("/proc/self", printed)
        for path in self.place.folder.rglob("*"):
            self.assertEqual(path.lstat().st_uid, user, path)

    def test_a_backup_is_put_in_place(self):
        printed = self.folder("restore", self.backup, self.file, "--yes")
        self.assertIn("4 to 6: the old file has 3 schemas after the backup's", printed)
        result = state_of(self.file)
        self.assertEqual(result["schemas"], self.registry.old["schemas"])
        self.assertEqual([row for row in result["versions"] if row[0] != "avroreg-lost-ids"], self.registry.backup["versions"])
        kept = next(self.place.jobs.glob("*/old/registry.db"))
        self.assertEqual({name: (kept.parent / name).read_bytes() for name in self.registry.before}, self.registry.before)
        self.assertIn("version 1 of s-d, id 4, is lost", next(self.place.jobs.glob("*/difference.txt")).read_text())
        self.serve()
        self.assertEqual(self.registry.register("new"), 7)

    def test_without_its_log_the_old_file_is_not_enough(self):
        self.place.log.unlink()
        self.assertIn("nobody knows how many ids", self.folder("restore", self.backup, self.file, "--yes", status=1))
        self.folder("restore", self.backup, self.file, "--greatest-id", "6", "--yes")
        self.assertEqual(len(state_of(self.file)["schemas"]), 1006)

    def test_a_killed_restore_is_finished(self):
        for number in (1, 2, 3):
            self.registry.reset()

            def install(number=number):
                rename, count = swap.os.rename, 0

                def killed(source, target, **more):
                    nonlocal count
                    count += "/old/" in str(target) or str(target) == str(self.file)
                    if count == number and ("/old/" in str(target) or str(target) == str(self.file)):
                        os._exit(9)
                    return rename(source, target, **more)
                swap.os.rename = killed
            self.folder("restore", self.backup, self.file, "--yes", status=9, prepare=install)
            self.folder("restore", self.backup, self.file, "--yes")
            self.assertEqual(state_of(self.file)["schemas"], self.registry.old["schemas"])
            kept = [file for file in self.place.jobs.glob("*/old/registry.db") if file.read_bytes() == self.registry.before["registry.db"]]
            self.assertEqual(len(kept), 1)


if __name__ == "__main__":
    unittest.main()
