"""Copies the registry of a running avroreg: no stop, no lock, no snapshot.

SQLite changes the file F only in a checkpoint, with pages that its log F-wal still has. After the
checkpoint, the log begins anew with another header. So a copy of F, and then of F-wal, is a
consistent backup if the log's header was valid and stayed the same throughout. If it changed or is
invalid, the copy is thrown away and made again. `README.md` has the reasons.

avroreg recovers the log of the copy as after a crash. Copy as the user that owns F, on the machine
on which avroreg runs.
"""

import contextlib
import os
import signal
import time
from collections.abc import Iterator
from pathlib import Path

from .files import sync_folder
from .output import ERROR, Stop
from .wal import log_of, valid_header

BLOCK_BYTES = 1 << 16
PAUSE_SECONDS = 0.05  # a slow disk takes long to write a new header
TRIES = 100
SUSPENDED_SECONDS = 5


def copy_file(source: str, target: str) -> None:
    """Copies with plain reads and writes, and syncs. The target must not exist."""
    descriptor = os.open(target, os.O_WRONLY | os.O_CREAT | os.O_EXCL | os.O_NOFOLLOW, 0o600)
    with open(source, "rb", buffering=0) as file, open(descriptor, "wb", buffering=0) as out:
        while block := file.read(BLOCK_BYTES):
            out.write(block)
        os.fsync(out.fileno())


def remove(target: str) -> None:
    """Removes a copy and its log."""
    for file in (target, log_of(target)):
        with contextlib.suppress(FileNotFoundError):
            os.unlink(file)


def copy_once(source: str, target: str) -> bool:
    """Copies the database and then its log. False, with nothing left, if the log began anew or its header is invalid."""
    before = valid_header(log_of(source))
    if before is None:
        return False
    copy_file(source, target)
    copy_file(log_of(source), log_of(target))
    if valid_header(log_of(source)) == before == valid_header(log_of(target)):
        sync_folder(os.path.dirname(target))
        return True
    remove(target)
    return False


@contextlib.contextmanager
def suspended(process: int, seconds: float = SUSPENDED_SECONDS) -> Iterator[None]:
    """Suspends avroreg, and lets it go on after the body, an error, or so many seconds. Then the body gets a TimeoutError."""
    def end(_signal, _frame):
        raise TimeoutError(f"avroreg was suspended for {seconds} seconds, and the copy isn't done")

    before = signal.signal(signal.SIGALRM, end)
    try:
        signal.setitimer(signal.ITIMER_REAL, seconds)
        os.kill(process, signal.SIGSTOP)
        yield
    finally:
        os.kill(process, signal.SIGCONT)
        signal.setitimer(signal.ITIMER_REAL, 0)
        signal.signal(signal.SIGALRM, before)


def check_files(source: str, target: str) -> None:
    """Refuses a registry without its log, and a target that exists."""
    for file in (source, log_of(source)):
        if not os.path.isfile(file):
            raise Stop(ERROR, f"{file} is missing, and avroreg may still have it open", "avroreg-admin doctor", "avroreg-admin rescue")
    for file in (target, log_of(target)):
        if os.path.lexists(file):
            raise Stop(ERROR, f"{file} exists already")


def failed(source: str, tries: int) -> Stop:
    """Why each try failed."""
    if valid_header(log_of(source)) is None:
        return Stop(ERROR, f"{source} wasn't copied in {tries} tries: the header of its log is invalid", "avroreg-admin rescue")
    return Stop(ERROR, f"{source} wasn't copied in {tries} tries: the log began anew during each one. Copy when there are fewer writes, or to a faster disk")


def copy(source: Path | str, target: Path | str, tries: int = TRIES, process: int | None = None) -> int:
    """Copies a registry that is served. Returns the number of the try that succeeded.

    If no try succeeds because of many writes, and the process of avroreg is known, it is suspended for one more try.
    """
    source, target = str(source), str(target)
    check_files(source, target)
    try:
        for number in range(1, tries + 1):
            if copy_once(source, target):
                return number
            time.sleep(PAUSE_SECONDS)
        if process is not None and valid_header(log_of(source)) is not None:
            with suspended(process):
                if copy_once(source, target):
                    return tries + 1
    except OSError as error:
        if not isinstance(error, FileExistsError):
            remove(target)
        raise
    raise failed(source, tries)
