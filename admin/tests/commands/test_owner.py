"""As root, with a registry of another user who plants links: root follows none, and changes nothing of root's."""

import contextlib
import os
import subprocess
import sys
import tempfile
import unittest
from pathlib import Path

from support import CommandCase

from avroreg_admin import places

USER = 12345
PYTHON = "/usr/bin/python3"  # the user may not be able to read another one
# Runs as that user: again and again, it puts links to the secret wherever a file could be.
ATTACK = """
import os, sys
folders, secret = sys.argv[1:-1], sys.argv[-1]
NAMES = ("registry.db", "registry.db-wal", "registry.db-journal", "registry.mark", "registry.mark.new", "ready.json", "ready.json.new", "last-good.json",
         "last-good.json.new")
def plant(folder):
    for name in NAMES:
        try:
            os.symlink(secret, os.path.join(folder, name))
        except OSError:
            pass
    for name in os.listdir(folder):
        path = os.path.join(folder, name)
        if os.path.isdir(path) and not os.path.islink(path):
            try:
                plant(path)
                if name in ("new", "old") or name.startswith("unfinished-"):
                    os.rename(path, path + "-away")
                    os.symlink(os.path.dirname(secret), path)
            except OSError:
                pass
print("ready", flush=True)
while True:
    for folder in folders:
        try:
            plant(folder)
        except OSError:
            pass
"""


def as_user() -> None:
    """In the fork: the registry belongs to that user, and its server and what a unit runs around it have its uid."""
    places.Local.owner = property(lambda place: (USER, USER))
    sys.executable = PYTHON
    start = subprocess.Popen.__init__

    def started(process, words, *more, **options):
        if not {"serve", "guard", "started", "before-stop", "settle"}.isdisjoint(map(str, words)):
            options |= {"user": USER, "group": USER, "extra_groups": []}
        start(process, words, *more, **options)
    subprocess.Popen.__init__ = started


@unittest.skipIf(os.geteuid() != 0, "needs root")
class OwnerCase(CommandCase):
    def setUp(self):
        super().setUp()
        found = [PYTHON, str(Path(places.__file__)), os.environ["AVROREG"]]
        if subprocess.run(["cat", *found], user=USER, group=USER, extra_groups=[], cwd="/", stdout=subprocess.DEVNULL, stderr=subprocess.DEVNULL).returncode:
            self.skipTest(f"another user can't read {', '.join(found)}")
        self.registry.reset()
        self.registry.root.parent.chmod(0o755)
        self.secrets = Path(self.enterContext(tempfile.TemporaryDirectory()))
        self.secret = self.secrets / "secret"
        self.secret.write_bytes(b"root's")
        self.secret.chmod(0o600)
        for folder in (self.place.folder, self.place.backups, self.place.metrics, self.registry.root / "run/avroreg"):
            folder.mkdir(exist_ok=True)
            for path in (folder, *folder.rglob("*")):
                os.chown(path, USER, USER, follow_symlinks=False)
        self.state = self.state_of_secret()

    def state_of_secret(self) -> tuple:
        found = self.secret.stat()
        return sorted(os.listdir(self.secrets)), self.secret.read_bytes(), found.st_uid, found.st_gid, found.st_mode, self.secrets.stat().st_uid

    def test_the_user_s_files_stay_the_user_s(self):
        self.run_command("restore", "--newest", "--yes", prepare=as_user)
        self.run_command("backup", prepare=as_user)
        self.run_command("drill", prepare=as_user)
        for folder in (self.place.jobs, self.place.backups):
            for path in folder.rglob("*"):
                self.assertEqual(path.lstat().st_uid, USER, path)
        for name in ("registry.db", "registry.mark"):
            self.assertEqual((self.place.folder / name).stat().st_uid, USER)
        self.assertEqual(self.state_of_secret(), self.state)

    def test_planted_links_gain_nothing(self):
        """The commands may fail. What is root's stays as it is."""
        with self.attacked():
            for words in (("restore", "--newest", "--yes"), ("continue",), ("undo", "--yes"), ("backup",), ("backups", "--verify"),
                          ("backups", "prune", "--keep", "1", "--jobs", "--yes"), ("backup", "--to", str(self.secrets / "copy.db")), ("lost-ids", "--count", "2", "--yes"),
                          ("continue",)):
                with contextlib.suppress(AssertionError):
                    self.run_command(*words, prepare=as_user)
                (self.secrets / "copy.db").unlink(missing_ok=True)
                self.assertEqual(self.state_of_secret(), self.state, words)

    @contextlib.contextmanager
    def attacked(self):
        attacker = subprocess.Popen([PYTHON, "-c", ATTACK, str(self.place.folder), str(self.place.backups), str(self.secret)], user=USER, group=USER,
                                    extra_groups=[], stdout=subprocess.PIPE)
        try:
            self.assertEqual(attacker.stdout.readline(), b"ready\n")
            yield
        finally:
            attacker.kill()
            attacker.communicate()

    def test_a_folder_that_is_a_link_gains_nothing(self):
        """The registry's user can't replace its own folder, but everything in it, and it can name any file of its own."""
        jobs = self.place.jobs
        if jobs.exists():
            jobs.rename(self.place.folder / "away")
        jobs.symlink_to(self.secrets)
        with contextlib.suppress(AssertionError):
            self.run_command("restore", "--newest", "--yes", prepare=as_user)
        self.assertEqual(self.state_of_secret(), self.state)

    def test_a_link_to_a_file_of_root_is_no_backup(self):
        """Root could read the target. The user could then read the copy."""
        link = self.place.folder / "rescued.db"
        link.symlink_to(self.secret)
        os.chown(link, USER, USER, follow_symlinks=False)
        self.refused("restore", "--file", str(link), "--yes", text="others than root can change", prepare=as_user)
        self.assertEqual([file for file in self.place.folder.rglob("*") if not file.is_symlink() and file.is_file() and b"root's" in file.read_bytes()], [])


if __name__ == "__main__":
    unittest.main()
