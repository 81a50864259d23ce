"""Makes folders and logs for tests. No test of this folder starts a process."""

import json
import os
import struct
import sys
import tempfile
import unittest
from pathlib import Path

sys.path.insert(0, str(Path(__file__).resolve().parent.parent))

PAGE_BYTES = 512
SALTS = b"\x00\x00\x00\x01abcd"


def add_checksum(state: tuple[int, int], data: bytes) -> tuple[int, int]:
    first, second = state
    for even, odd in struct.iter_unpack(">2I", data):
        first = first + even + second & 0xFFFFFFFF
        second = second + odd + first & 0xFFFFFFFF
    return first, second


def log_of(commits: list[bool]) -> bytes:
    """A valid log: a frame for each item, which says whether it is a commit frame."""
    front = struct.pack(">4I", 0x377F0683, 3007000, PAGE_BYTES, 1) + SALTS
    state = add_checksum((0, 0), front)
    log = front + struct.pack(">2I", *state)
    for number, is_commit in enumerate(commits, 1):
        begin, page = struct.pack(">2I", number, number if is_commit else 0), bytes([number % 256]) * PAGE_BYTES
        state = add_checksum(state, begin + page)
        log += begin + SALTS + struct.pack(">2I", *state) + page
    return log


class RegistryCase(unittest.TestCase):
    """A place of tests with a stopped registry. Its file has bytes, and is none that avroreg could open."""

    def setUp(self):
        self.root = Path(self.enterContext(tempfile.TemporaryDirectory()))
        self.folder, self.state = self.root / "var/lib/avroreg", self.root / "var/lib/avroreg-admin/default"
        self.folder.mkdir(parents=True)
        self.state.mkdir(parents=True)
        self.database, self.log, self.mark = (self.folder / name for name in ("registry.db", "registry.db-wal", "registry.mark"))
        self.database.write_bytes(b"a registry")
        self.log.write_bytes(log_of([True, False, True, True]))
        self.write(self.state / "registry.json", {"place": "here", "folder": str(self.folder), "unit": "avroreg"})
        self.note()

    def write(self, path: Path, value) -> None:
        path.write_text(json.dumps(value))

    def note(self, **changes) -> None:
        """Writes the mark of the file as it lies there."""
        found = os.stat(self.database)
        self.write(self.mark, {"place": "here", "state": "stopped", "log": True, "inode": found.st_ino, "size": found.st_size, "time": found.st_mtime_ns,
                               "header": None, "job": None} | changes)
