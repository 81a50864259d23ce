"""Files that somebody removed or renamed while avroreg serves them: the process still has them open."""

import os
import signal
import stat
import subprocess
import time
from contextlib import contextmanager
from dataclasses import dataclass

from . import mark, marking, program, repair, seen
from .output import ERROR, Stop

COPY_NAME = "rescued-%Y%m%dT%H%M%SZ.db"
DATABASE_BEGINS = b"SQLite format 3\0"
LOG_BEGINS = (b"\x37\x7f\x06\x82", b"\x37\x7f\x06\x83")


@dataclass(frozen=True)
class Opened:
    """The paths in /proc of the registry's file and of its log, as the process has them open."""

    database: str | None
    log: str | None


def opened_by(place, pid: int) -> Opened:
    """Finds both files by their first bytes, or by their names."""
    folder, found = f"/proc/{pid}/fd", {}
    for number in os.listdir(folder):
        path = os.path.join(folder, number)
        name = os.readlink(path).removesuffix(" (deleted)")
        kind = kind_of(path) or {str(place.database): "database", str(place.log): "log"}.get(name)
        if kind:
            found.setdefault(kind, path)
    return Opened(found.get("database"), found.get("log"))


def kind_of(path: str) -> str | None:
    if not stat.S_ISREG(os.stat(path).st_mode):
        return None
    with open(path, "rb") as file:
        begin = file.read(16)
    return "database" if begin == DATABASE_BEGINS else "log" if begin.startswith(LOG_BEGINS) else None


def missing(place, pid: int) -> list[str]:
    """The names of the files that the process has open and that aren't in the folder any more."""
    opened = opened_by(place, pid)
    return [path.name for path, handle in ((place.database, opened.database), (place.log, opened.log))
            if handle is not None and not is_same(os.stat(handle), mark.stat_of(str(path)))]


def is_same(one: os.stat_result, other: os.stat_result | None) -> bool:
    return other is not None and (one.st_dev, one.st_ino) == (other.st_dev, other.st_ino)


@contextmanager
def suspended(pid: int, stays: bool = False):
    """Suspends the server. It goes on after an error, and after the body unless it stays suspended until it is stopped."""
    os.kill(pid, signal.SIGSTOP)
    is_done = False
    try:
        yield
        is_done = True
    finally:
        if not (is_done and stays):
            os.kill(pid, signal.SIGCONT)


def is_suspended(pid: int) -> bool:
    with open(f"/proc/{pid}/stat", encoding="utf-8") as file:
        return file.read().rpartition(")")[2].split()[0] == "T"


def copy(place, source: str, target: str) -> None:
    """Root opens what the process has open; the registry's user writes the copy."""
    uid, gid = place.owner
    with open(source, "rb") as file:
        result = subprocess.run(["dd", f"of={target}", "conv=excl,fsync", "bs=1M", "status=none"], stdin=file, user=uid, group=gid, extra_groups=[],
                                umask=0o077, capture_output=True, text=True)
    if result.returncode != 0:
        raise Stop(ERROR, f"{target} can't be written: {result.stderr.strip()}")


def save(place, pid: int) -> str:
    """Copies both files out of the process, audits the copy, and notes it in the mark. Returns its path.

    The server stays suspended, so that it accepts no write that the copy hasn't. A signal that stops it ends it at once.
    """
    opened = opened_by(place, pid)
    if opened.database is None:
        raise Stop(ERROR, f"process {pid} has no registry open")
    target = str(place.folder / time.strftime(COPY_NAME, time.gmtime()))
    with suspended(pid, stays=True):
        copy(place, opened.database, target)
        if opened.log is not None:
            copy(place, opened.log, target + "-wal")
        place.hands(repair.mend_copy, log=target + "-wal", saved=seen.read(place.seen_file).get("header"))
        audit = place.hands(program.audit, program=place.program, database=target)
        if audit["status"] != 0:
            raise Stop(ERROR, f"the copy {target} fails its audit: {audit['text']}")
        place.hands(marking.note_rescued, database=place.database, copy=target)
    return target
