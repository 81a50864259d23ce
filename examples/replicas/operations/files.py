"""Files, also those in folders of the services' users.

Root never opens or renames a file by its path in such a folder: its user could put a link there. Each step runs as the owner of
the folder, by setpriv.
"""
import copy
import os
import pathlib
import subprocess
import sys
from typing import IO

from operations.cluster import Failed

WRITE = 'umask 077 && rm -f -- "$1" && cat >"$1" && sync -- "$1"'
READ = 'if [ -e "$1" ]; then cat -- "$1"; fi'
KEPT = """import sqlite3, sys, urllib.parse
database = sqlite3.connect(f"file:{urllib.parse.quote(sys.argv[1])}?immutable=1", uri=True)
print(*[key for key in sys.argv[2:] if database.execute("SELECT 1 FROM kept WHERE key = ?", (key,)).fetchone()])"""


def check_parents(folder: pathlib.Path) -> None:
    """Fails if a folder lies in one of another user, who could put another one in its place."""
    for parent in folder.parents:
        if parent.stat().st_uid not in (0, os.geteuid()):
            raise Failed(f"{parent} belongs to another user: choose a folder elsewhere")


class File:
    """A file, which is no link."""

    def __init__(self, path: pathlib.Path) -> None:
        folder = path.parent.resolve()
        check_parents(folder)
        self.path = folder / path.name
        if self.path.is_symlink():
            raise Failed(f"{path} is a link: name the file itself")
        owner = folder.stat()
        self.as_owner: list[str] = []
        if os.geteuid() == 0 and owner.st_uid != 0:
            self.as_owner = ["setpriv", f"--reuid={owner.st_uid}", f"--regid={owner.st_gid}", "--clear-groups", "--no-new-privs", "--"]

    def next_to(self, suffix: str) -> "File":
        """The file whose name has a suffix, in the same folder. If it is a link, it is removed before the file is written."""
        found = copy.copy(self)
        found.path = self.path.with_name(self.path.name + suffix)
        return found

    def run(self, *words: str, source: IO[bytes] | bytes = b"") -> bytes:
        """Runs a command as the owner of the folder, with this input. Returns its output."""
        given = {"input": source} if isinstance(source, bytes) else {"stdin": source}
        done = subprocess.run([*self.as_owner, *words], capture_output=True, cwd="/", **given)
        if done.returncode:
            text = (done.stderr.strip() or done.stdout.strip()).decode(errors="replace")
            raise Failed(f"{self.path}: {text or f'{words[0]} ended with {done.returncode}'}")
        return done.stdout

    def exists(self) -> bool:
        return self.run("sh", "-c", '[ ! -e "$1" ] || echo yes', "sh", str(self.path)) != b""

    def read(self) -> bytes:
        """The contents, empty if there is no file."""
        return self.run("sh", "-c", READ, "sh", str(self.path))

    def write(self, source: IO[bytes] | bytes) -> None:
        """Makes a new file of mode 0600. After an error there is none."""
        try:
            self.run("sh", "-c", WRITE, "sh", str(self.path), source=source)
        except Failed:
            self.remove()
            raise

    def copy_from(self, other: "File") -> None:
        with subprocess.Popen([*other.as_owner, "cat", "--", str(other.path)], stdout=subprocess.PIPE, cwd="/") as pipe:
            assert pipe.stdout
            self.write(pipe.stdout)
        if pipe.returncode:
            self.remove()
            raise Failed(f"{other.path} can't be read")

    def rename(self, target: "File") -> None:
        self.run("mv", "-fT", "--", str(self.path), str(target.path))

    def remove(self) -> None:
        self.run("rm", "-f", "--", str(self.path))

    def digest(self) -> str:
        return self.run("sha256sum", "--", str(self.path)).decode().lstrip("\\")[:32]

    def kept(self, keys: list[str]) -> set[str]:
        """Which of these retry keys a database has. Its write-ahead log is merged, and nothing has it open."""
        return set(self.run(sys.executable, "-I", "-c", KEPT, str(self.path), *keys).decode().split())
