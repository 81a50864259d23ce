#!/usr/bin/env python3
"""Copies a registry under write load again and again, and checks each copy with checks.py.

    trial.py COPIES FOLDER..      makes COPIES copies in each folder, half of them with kills

Two clients write while a copy is made, and pause while a copy is checked. Every second copy reads
as if from a slow disk, so that SQLite often starts a new log meanwhile. With kills, the server is
killed at random moments, also within a copy, and starts again. A registry serves for at most 25
copies. AVROREG names the program, ADMIN the folder with the modules.
"""

import http.client
import os
import random
import shutil
import signal
import subprocess
import sys
import tempfile
import threading
import time
from dataclasses import dataclass, field
from pathlib import Path
from unittest import mock

from checks import Server, Write, fault_of, hot_copy, log_of, random_write, remove

HEADER_BYTES = 32
ROUND = 25
TRIES = 100
WRITES_BETWEEN_COPIES = 20
LONGEST_SECONDS = 60
DIGITS = 12000
SLOWEST_SECONDS = 0.8
KILL_SECONDS = (0.05, 0.6)


@dataclass
class Load:
    """The clients, which write while `runs` is set, and the acknowledged writes in the order of their replies. A further thread
    may kill the server."""

    server: Server
    acknowledged: list[Write] = field(default_factory=list)
    kills: int = 0
    copying: bool = False
    kills_in_copies: int = 0
    runs: threading.Event = field(default_factory=threading.Event)
    stopped: bool = False
    lock: threading.Lock = field(default_factory=threading.Lock)

    def write(self, client: int) -> None:
        chance, number = random.Random(client), 0
        while not self.stopped:
            number += 1
            write = random_write(client, number, chance, DIGITS)
            while self.runs.wait() and not self.stopped:
                try:
                    replied = self.server.send(write)
                except (OSError, http.client.HTTPException):
                    time.sleep(0.02)
                    continue
                if replied:
                    with self.lock:
                        self.acknowledged.append(replied)
                    break

    def kill(self) -> None:
        while self.runs.wait() and not self.stopped:
            time.sleep(random.uniform(*KILL_SECONDS))
            if self.runs.is_set() and not self.stopped:
                self.kills += 1
                self.kills_in_copies += self.copying
                self.server.kill()
                self.server.start()

    def wait_for(self, count: int) -> None:
        """Waits until `count` more writes are acknowledged."""
        last, deadline = len(self.acknowledged) + count, time.monotonic() + LONGEST_SECONDS
        while len(self.acknowledged) < last and time.monotonic() < deadline:
            time.sleep(0.01)

    def writes_so_far(self) -> list[Write]:
        with self.lock:
            return list(self.acknowledged)


@dataclass
class Counts:
    """The results of a folder's copies."""

    copies: int = 0
    wrong: int = 0
    rejected: int = 0
    kills: int = 0
    kills_in_copies: int = 0
    writes: int = 0
    logs: set[bytes] = field(default_factory=set)

    def __str__(self) -> str:
        return (f"{self.copies} copies, {self.wrong} wrong; {self.rejected} tries rejected; {len(self.logs)} different logs; "
                f"{self.kills} kills, {self.kills_in_copies} of them within a copy; {self.writes} writes")


@dataclass
class SlowCopy:
    """`copy_file` with a pause after each block."""

    pause: float

    def __call__(self, source: str, target: str) -> None:
        with open(source, "rb", buffering=0) as file, open(target, "xb", buffering=0) as out:
            while block := file.read(hot_copy.BLOCK_BYTES):
                out.write(block)
                time.sleep(self.pause)
            os.fsync(out.fileno())


def copy_file_of(number: int, attempt: int, database: Path):
    """The function with which a copy reads: a slow one for every second copy, less slow after each rejection. On a quick machine
    a new log begins several times a second, and a slow copy never succeeds."""
    if number % 2 == 0:
        return hot_copy.copy_file
    blocks = sum(os.path.getsize(file) for file in (database, log_of(database))) // hot_copy.BLOCK_BYTES + 2
    return SlowCopy(random.uniform(0, SLOWEST_SECONDS) / (attempt + 1) / blocks)


def copy_under_load(load: Load, copy: Path, number: int, counts: Counts) -> str:
    """Copies while the load runs. Returns what is wrong with the copy, or an empty text."""
    database = load.server.file
    load.runs.set()
    load.wait_for(WRITES_BETWEEN_COPIES)
    for attempt in range(TRIES):
        acknowledged = load.writes_so_far()
        load.copying = True
        with mock.patch.object(hot_copy, "copy_file", copy_file_of(number, attempt, database)):
            accepted = hot_copy.copy_once(str(database), str(copy))
        load.copying = False
        if accepted:
            break
        counts.rejected += 1
        time.sleep(hot_copy.PAUSE_SECONDS)
    load.runs.clear()
    counts.copies += 1
    if not accepted:
        return f"none of {TRIES} tries gave a copy"
    counts.logs.add(Path(log_of(copy)).read_bytes()[:HEADER_BYTES])
    fault = fault_of(copy, acknowledged)
    remove(copy)
    return fault


def run_round(folder: Path, copies: int, with_kills: bool, counts: Counts) -> None:
    """Fills a new registry, and makes `copies` copies of it."""
    folder = Path(tempfile.mkdtemp(prefix="avroreg-trial-", dir=folder))
    load = Load(Server(folder / "registry.db"))
    load.server.request("PUT", "/config", '{"compatibility":"NONE"}')
    threads = [threading.Thread(target=load.write, args=(client,)) for client in (1, 2)]
    threads += [threading.Thread(target=load.kill)] if with_kills else []
    for thread in threads:
        thread.start()
    try:
        for number in range(copies):
            fault = copy_under_load(load, folder / f"copy{number}.db", number, counts)
            if fault:
                counts.wrong += 1
                print(f"WRONG: a copy in {folder}: {fault}"[:300], flush=True)
    finally:
        load.stopped = True
        load.runs.set()
        for thread in threads:
            thread.join()
        if load.server.process.poll() is not None or len(load.acknowledged) < copies * WRITES_BETWEEN_COPIES:
            counts.wrong += 1
            print(f"WRONG: the server in {folder} ended, or acknowledged too few writes", flush=True)
        load.server.kill()
    counts.kills += load.kills
    counts.kills_in_copies += load.kills_in_copies
    counts.writes += len(load.acknowledged)
    shutil.rmtree(folder)


def trial(folder: Path, copies: int) -> int:
    """Makes half of the copies without kills and half with kills. Returns how many are wrong."""
    kind = subprocess.run(["stat", "-f", "-c", "%T", folder], check=True, capture_output=True, text=True).stdout.strip()
    wrong = 0
    for with_kills, part in ((False, copies - copies // 2), (True, copies // 2)):
        counts = Counts()
        while counts.copies < part:
            run_round(folder, min(ROUND, part - counts.copies), with_kills, counts)
        print(f"{kind}, {'with' if with_kills else 'without'} kills: {counts}", flush=True)
        wrong += counts.wrong
    return wrong


def main() -> int:
    if len(sys.argv) < 3 or not sys.argv[1].isdigit():
        print(__doc__, file=sys.stderr)
        return 2
    signal.signal(signal.SIGTERM, signal.default_int_handler)
    return 1 if sum(trial(Path(folder), int(sys.argv[1])) for folder in sys.argv[2:]) else 0


if __name__ == "__main__":
    sys.exit(main())
