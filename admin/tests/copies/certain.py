#!/usr/bin/env python3
"""Interrupts the hot copy at chosen moments, which are rare under load, and checks the copies.

A real server fills the registry. Between the two files, or within one of them, SQLite starts a new
log, or a checkpoint copies the log into the database. `hot_copy` may reject such a copy or accept it. An accepted copy must pass every check of checks.py.

    certain.py FOLDER       an empty folder; AVROREG names the program, ADMIN the folder with the modules
"""

import os
import random
import shutil
import subprocess
import sys
from collections.abc import Callable
from dataclasses import dataclass
from pathlib import Path
from unittest import mock

from checks import ADMIN, PROGRAM, Server, Write, fault_of, hot_copy, log_of, random_write, remove

HEADER_BYTES = 32
PAGE_SIZE_BYTE = 10
TRIES_SECONDS = 30
# A process that dies in a checkpoint: it has copied the log into the database, and the log still has its old header.
CHECKPOINT = """
import os, sqlite3, sys
busy, frames, copied = sqlite3.connect(sys.argv[1]).execute("PRAGMA wal_checkpoint(PASSIVE)").fetchone()
os._exit(0 if not busy and frames == copied > 0 else 1)
"""


def header_of(database: Path) -> bytes:
    with open(log_of(database), "rb") as log:
        return log.read(HEADER_BYTES)


@dataclass
class Interruption:
    """`copy_file` with an event: after the first block of this file or, without one, after the first file."""

    event: Callable[[], None]
    within: str | None = None
    happened: bool = False

    def __call__(self, source: str, target: str) -> None:
        with open(source, "rb", buffering=0) as file, open(target, "xb") as out:
            out.write(file.read(hot_copy.BLOCK_BYTES))
            if source == self.within:
                self.happen()
            out.write(file.read())
        if self.within is None:
            self.happen()

    def happen(self) -> None:
        if not self.happened:
            self.happened = True
            self.event()


class Registry:
    """A served registry, with the writes that it acknowledged."""

    def __init__(self, file: Path):
        self.file = file
        self.server = Server(file)
        self.server.request("PUT", "/config", '{"compatibility":"NONE"}')
        self.acknowledged: list[Write] = []
        self.chance = random.Random(1)
        self.number = 0

    def write(self, count: int, digits: int = 6000) -> None:
        for _ in range(count):
            self.number += 1
            write = self.server.send(random_write(1, self.number, self.chance, digits))
            if write is None:
                raise RuntimeError("a write failed")
            self.acknowledged.append(write)

    def begin_new_log(self) -> None:
        """Writes until SQLite has started a new log, and then some more."""
        before = header_of(self.file)
        while header_of(self.file) == before:
            self.write(1, 30000)
        self.write(5, 30000)

    def write_and_checkpoint(self) -> None:
        """Sends writes, kills the server, and then interrupts a checkpoint."""
        before, database = header_of(self.file), self.file.read_bytes()
        self.write(40, 1000)
        if header_of(self.file) != before:
            raise RuntimeError("the log began anew too early")
        self.server.kill()
        subprocess.run([sys.executable, "-c", CHECKPOINT, self.file], check=True)
        if header_of(self.file) != before or self.file.read_bytes() == database:
            raise RuntimeError("this was no checkpoint")

    def close(self) -> None:
        """Kills the server. `avroreg list` then copies the log into the database, and removes it."""
        self.server.kill()
        subprocess.run([PROGRAM, "list", "--db", self.file, "subjects"], check=True, capture_output=True)

    def live_with_empty_log(self) -> None:
        """Serves some writes and closes. Then leaves an empty log, like a program that was killed right after its start."""
        os.unlink(log_of(self.file))
        self.server.start()
        self.write(40, 1000)
        self.close()
        Path(log_of(self.file)).touch()


class Cases:
    """The cases, and how many were wrong."""

    def __init__(self, folder: Path):
        self.folder = folder
        self.copy = folder / "copy.db"
        self.registry = Registry(folder / "registry.db")
        self.wrong = 0

    def report(self, name: str, outcome: str, fault: str) -> None:
        self.wrong += fault != ""
        print(f"WRONG: {name}: {fault}"[:300] if fault else f"{name}: {outcome}", flush=True)

    def attempt(self, name: str, event: Callable[[], None], within: str | None = None) -> None:
        """Copies with the event. The copy must be rejected, with nothing left, or be right."""
        writes = list(self.registry.acknowledged)
        interruption = Interruption(event, within)
        with mock.patch.object(hot_copy, "copy_file", interruption):
            accepted = hot_copy.copy_once(str(self.registry.file), str(self.copy))
        if accepted:
            fault = fault_of(self.copy, writes)
        else:
            fault = "a rejected copy is left" if self.copy.exists() or os.path.exists(log_of(self.copy)) else ""
        if not interruption.happened and accepted:
            fault = "it doesn't copy with copy_file"
        self.report(name, "accepted, and right" if accepted else "rejected", fault)
        remove(self.copy)

    def calm(self, name: str) -> None:
        """Copies without an event. The copy must be accepted, and be right."""
        accepted = hot_copy.copy_once(str(self.registry.file), str(self.copy))
        fault = fault_of(self.copy, self.registry.acknowledged) if accepted else "rejected"
        self.report(name, "accepted, and right", fault)
        remove(self.copy)

    def damaged(self, name: str) -> None:
        """Damages the header of the served log, which the server doesn't read. The copy must be rejected or right. A new log
        repairs the header."""
        with open(log_of(self.registry.file), "r+b") as log:
            log.seek(PAGE_SIZE_BYTE)
            log.write(b"\xff")
        accepted = hot_copy.copy_once(str(self.registry.file), str(self.copy))
        fault = fault_of(self.copy, self.registry.acknowledged) if accepted else ""
        self.report(name, "accepted, and right" if accepted else "rejected", fault)
        remove(self.copy)
        self.registry.begin_new_log()
        self.calm("a copy after the next log began")

    def tries_end(self) -> None:
        """Copies a log that is never valid. The copy must end after its tries, name their number, and leave nothing."""
        damaged = self.folder / "endless.db"
        shutil.copyfile(self.registry.file, damaged)
        Path(log_of(damaged)).touch()
        name = "a log that is never valid"
        code = f"import sys; sys.path.insert(0, {ADMIN!r}); from avroreg_admin import hot_copy; hot_copy.copy(*sys.argv[1:])"
        try:
            ran = subprocess.run([sys.executable, "-c", code, damaged, self.copy], capture_output=True, text=True, timeout=TRIES_SECONDS)
        except subprocess.TimeoutExpired:
            self.report(name, "", f"it is still tried after {TRIES_SECONDS} seconds")
        else:
            right = "in 100 tries: the header of its log is invalid" in ran.stderr and not self.copy.exists()
            self.report(name, "it ends after 100 tries", "" if right else f"status {ran.returncode}, {ran.stderr}")
        remove(damaged)
        remove(self.copy)

    def run(self) -> None:
        registry = self.registry
        registry.begin_new_log()
        self.calm("a copy while nothing happens")
        self.attempt("a new log between the files", registry.begin_new_log)
        self.attempt("a new log while the log is copied", registry.begin_new_log, log_of(registry.file))
        self.calm("a copy after that")
        self.damaged("a damaged header")
        self.attempt("a checkpoint between the files", registry.write_and_checkpoint)
        registry.close()
        Path(log_of(registry.file)).touch()
        self.attempt("an empty log, before and after", registry.live_with_empty_log, str(registry.file))
        self.tries_end()


def main() -> int:
    cases = Cases(Path(sys.argv[1]))
    try:
        cases.run()
    finally:
        cases.registry.server.kill()
    return 1 if cases.wrong else 0


if __name__ == "__main__":
    sys.exit(main())
