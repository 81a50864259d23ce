"""nginx's log: how many ids can have been assigned since a backup, and which writes came after it.

nginx writes a line when a response ends, so the lines are in the order of time, even if somebody sets
the clock back. So this module counts from the first line that can be newer than the backup, to the
end. That is the first line with a later time, or the first one whose clock was set back.
"""

import gzip
import itertools
import json
import os
import re
import stat
from collections.abc import Iterable, Iterator
from dataclasses import dataclass, field
from datetime import datetime, timedelta
from pathlib import Path

GZIP_MAGIC = b"\x1f\x8b"
REGISTRATION = re.compile(r"/subjects/[^/]+/versions")
# Two workers may write their lines in another order than the one of their times.
SLACK = timedelta(seconds=5)
WRITES = ("POST", "PUT", "DELETE")
LISTED_WRITES = 10_000


@dataclass(frozen=True)
class Entry:
    """A request in the log."""

    time: datetime
    method: str
    path: str
    status: int
    user: str

    @property
    def may_be_applied(self) -> bool:
        """Whether avroreg may have done what the request asks for: nginx got a good response, or none."""
        return self.status == 200 or self.status >= 499

    @property
    def is_registration(self) -> bool:
        return self.method == "POST" and REGISTRATION.match(self.path) is not None

    @property
    def is_write(self) -> bool:
        return self.is_registration or self.method in ("PUT", "DELETE")


@dataclass
class Since:
    """What the log has since a backup. `set_back` is the first time that is earlier than the one before it."""

    registrations: int = 0
    unreadable: int = 0
    first: datetime | None = None
    last: datetime | None = None
    set_back: datetime | None = None
    writes: list[Entry] = field(default_factory=list)

    @property
    def ids(self) -> int:
        """How many ids can have been assigned. A line that can't be read may be a registration."""
        return self.registrations + self.unreadable

    def add(self, entry: Entry) -> None:
        """Counts a line that can be newer than the backup."""
        if entry.may_be_applied and entry.is_write:
            self.registrations += entry.is_registration
            if len(self.writes) < LISTED_WRITES:
                self.writes.append(entry)


def time_of(text: str) -> datetime:
    """A time with its offset from UTC."""
    time = datetime.fromisoformat(text)
    if time.tzinfo is None:
        raise ValueError(f"{text} has no offset from UTC")
    return time


def entry_of(line: str) -> Entry | None:
    """A line of the log, or None if it can't be read, such as the last one before a crash."""
    try:
        fields = json.loads(line)
        return Entry(time_of(fields["time"]), str(fields["method"]), str(fields["path"]), int(fields["status"]), str(fields.get("user", "")))
    except (ValueError, KeyError, TypeError, AttributeError, RecursionError):
        return None


def read_since(lines: Iterable[str], since: datetime) -> Since:
    """Reads all lines, the oldest one first."""
    found, before, is_newer, pending = Since(), None, False, 0
    for line in lines:
        entry = entry_of(line)
        if entry is None:
            pending += 1
            continue
        found.first = found.first or entry.time
        if before is not None and entry.time < before - SLACK:
            found.set_back = found.set_back or entry.time
        is_newer = is_newer or found.set_back is not None or entry.time >= since - SLACK
        found.unreadable += pending if is_newer else 0
        pending = 0
        if is_newer:
            found.add(entry)
        before = found.last = entry.time
    found.unreadable += pending
    return found


def age_of(log: Path, name: str) -> tuple[int, int]:
    """A sort key of a rotated log: the oldest first. logrotate adds a number that grows with the age, or a date."""
    suffix = log.name.removeprefix(name).removesuffix(".gz").lstrip(".-")
    digits = "".join(character for character in suffix if character.isdigit())
    if not digits:
        return (2, 0)
    return (0, int(digits)) if len(digits) >= 8 else (1, -int(digits))


def rotated(log: Path) -> list[Path]:
    """The log and its older files, the oldest one first."""
    return sorted((file for file in log.parent.glob(log.name + "*") if file.name.removesuffix(".gz") == log.name or is_rotated(file, log)),
                  key=lambda file: age_of(file, log.name))


def is_rotated(file: Path, log: Path) -> bool:
    return re.fullmatch(r"[.-][0-9-]+(\.gz)?", file.name.removeprefix(log.name)) is not None


def lines_of(log: Path) -> Iterator[str]:
    """The lines of a log, also of a packed one. Refuses links and whatever isn't a file."""
    descriptor = os.open(log, os.O_RDONLY | os.O_NOFOLLOW | os.O_NONBLOCK)
    with open(descriptor, "rb") as opened:
        if not stat.S_ISREG(os.fstat(descriptor).st_mode):
            raise OSError(f"{log} isn't a regular file")
        packed = opened.read(len(GZIP_MAGIC)) == GZIP_MAGIC
        opened.seek(0)
        lines = gzip.open(opened, "rb") if packed else opened
        for line in lines:
            yield line.decode("utf-8", "replace")


def since(log: Path, time: datetime) -> Since | None:
    """What the log and its older files have since this time. None if there is no line that can be read."""
    files = rotated(log)
    found = read_since(itertools.chain.from_iterable(map(lines_of, files)), time)
    return found if found.first is not None else None
