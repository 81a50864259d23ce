"""`--dry-run` of each command that changes something: it prints its plan, and changes no file and no response."""

import contextlib
import os
import shutil
import subprocess
import unittest
from collections.abc import Callable
from unittest import mock

from support import CommandCase, free_port

import releasing
from avroreg_admin import arguments, replacement
from importing import Registry as Importing

INFORMING = ("status", "doctor", "logs")


def nothing() -> None:
    """A running registry is enough."""


class DryCase(CommandCase):
    def setUp(self):
        super().setUp()
        self.there = Importing()

    def stop(self) -> None:
        self.place.stop()

    def link(self) -> None:
        self.stop()
        os.link(self.place.database, self.registry.root / "link")

    def replace(self) -> None:
        self.stop()
        self.place.database.rename(self.place.folder / "other")
        shutil.copyfile(self.place.folder / "other", self.place.database)

    def put_nginx_in_front(self) -> None:
        configuration = self.registry.root / "etc/nginx/conf.d/avroreg.conf"
        configuration.parent.mkdir(parents=True, exist_ok=True)
        configuration.write_text("1 /run/avroreg/default/paused;")
        executable = self.registry.root / "usr/sbin/avroreg-nginx"
        executable.parent.mkdir(parents=True, exist_ok=True)
        executable.write_text(f"#!/bin/sh\ntouch {self.registry.root}/called\n")
        executable.chmod(0o755)

    def leave_unfinished(self) -> None:
        def install():
            replacement.Replacement.swap = lambda _: os._exit(9)
        self.run_command("restore", "--newest", "--yes", status=9, prepare=install)

    def mount(self) -> None:
        disk = self.registry.root / "disk"
        disk.mkdir()
        subprocess.run(["mount", "-t", "tmpfs", "-o", "size=16m", "tmpfs", disk], check=True)
        self.stack.callback(subprocess.run, ["umount", disk])

    def release(self) -> None:
        releasing.make(self.registry.root)

    def commands(self) -> dict[str, tuple[Callable[[], None], list[str]]]:
        """What is done before each command, and its arguments."""
        deb = self.registry.root / "2.0.deb"
        return {
            "init": (nothing, ["--registry", "other", "--port", str(free_port())]), "port": (nothing, [str(free_port())]),
            "nginx": (self.put_nginx_in_front, ["off"]), "user": (self.put_nginx_in_front, ["remove", "ci"]), "pause": (self.put_nginx_in_front, []),
            "resume": (nothing, []), "read-only": (nothing, ["on"]), "backup": (nothing, []), "backups": (nothing, ["prune", "--keep", "1"]), "drill": (nothing, []),
            "restore": (nothing, ["--newest"]), "lost-ids": (nothing, ["--count", "3"]), "rescue": (nothing, ["--over-http"]), "repair": (self.link, []),
            "folder": (nothing, ["backup", str(self.place.database), str(self.registry.root / "copy.db")]), "accept": (self.replace, ["--reason", "x", "--greatest-id", "9"]),
            "upgrade": (self.release, [str(deb)]), "rollback": (self.release, [str(deb)]), "move": (self.mount, [str(self.registry.root / "disk")]),
            "copy-from": (nothing, [self.there.url, "--switch", "--replace"]), "copy-to": (nothing, [self.there.url, "--switch"]),
            "continue": (self.leave_unfinished, []), "undo": (self.leave_unfinished, []),
        }

    def files(self) -> dict[str, tuple]:
        """All files of this place, but for what each start and each reading command leaves."""
        found = {}
        for file in self.registry.root.rglob("*"):
            seen = file.lstat()
            if file.is_file() and file.name not in ("server.log", "lock"):
                found[str(file)] = (seen.st_ino, seen.st_size, seen.st_mtime_ns)
        return found

    def test_each_command_that_changes_something_prints_its_plan(self):
        self.enterContext(mock.patch.dict(os.environ, AVROREG_REAL=os.environ["AVROREG"]))
        changing = {command.name for command in arguments.SUBCOMMANDS if not command.is_internal and command.name not in INFORMING}
        self.assertEqual(changing, self.commands().keys())
        self.addCleanup(self.there.close)
        for name, (prepare, words) in self.commands().items():
            with self.subTest(command=name), contextlib.ExitStack() as self.stack:
                if prepare is not nothing:
                    self.registry.reset(is_served=True)
                    prepare()
                before = self.files()
                if name in ("upgrade", "rollback"):
                    status, printed = releasing.run(self.registry.root, name, *words, "--dry-run")
                else:
                    status, printed = self.registry.run_any(name, *words, "--dry-run")
                self.assertEqual(status, 0, printed)
                self.assertIn("plan", printed)
                self.assertEqual(self.files(), before)
                self.assertEqual(self.there.modes, {"": "READWRITE"})


if __name__ == "__main__":
    unittest.main()
