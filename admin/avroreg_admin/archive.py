"""The folder of backups: what is in it, in which order, and which ones may go.

Each backup registry-TIME.db has a record registry-TIME.json. The record's number gives the order: a
name, and the time of a file, come from a clock that may have been wrong. All figures come from the
records. last-good.json is made of them for `watch`, and never read here.

No request removes a schema. So a backup with fewer schemas than an earlier one is of a registry that
was made by mistake, or restored. The fullest backup is never removed by itself.
"""

import contextlib
import fcntl
import hashlib
import os
import stat
import time
from collections.abc import Iterator
from dataclasses import asdict, dataclass, field, fields, replace
from pathlib import Path

from .files import read_json, sync_folder, write_json
from .hands import task
from .output import BUSY, NO, Stop

PATTERN = "registry-*.db"
UNFINISHED = "unfinished-"
NOTE = "last-good.json"
HOLDS, FAILS = "holds", "fails"
CLOCK_SLACK_SECONDS = 60


@dataclass(frozen=True)
class Record:
    """A backup. `baseline` is the number of the first backup that counts for `expected` and for the fullest one.

    A backup that lost its record, or never had one, gets a negative number: it is older than all others.
    """

    number: int
    file: str
    time: int
    subjects: int
    versions: int
    schemas: int
    bytes: int
    sha256: str
    audit: str = HOLDS
    program: str = ""
    baseline: int = 0
    expected: int = 0
    accepted: str = ""
    pinned: str = ""
    job: str = ""


@dataclass
class Archive:
    """The records in their order, and the files whose record is missing or damaged."""

    records: list[Record] = field(default_factory=list)
    unrecorded: list[str] = field(default_factory=list)

    @property
    def good(self) -> list[Record]:
        return [record for record in self.records if record.audit == HOLDS]

    @property
    def newest(self) -> Record | None:
        return self.good[-1] if self.good else None

    @property
    def fullest(self) -> Record | None:
        """The backup with the most schemas since the baseline; the newest one of them."""
        counted = [record for record in self.good if record.number >= self.good[-1].baseline]
        return max(counted, key=lambda record: (record.schemas, record.number), default=None)

    def removable(self, keep: int) -> list[Record]:
        """The backups that may go if so many are kept: not the newest, the fullest or a pinned one, nor one with a failed audit."""
        if not self.good:
            return []
        stay = {record.number for record in (*self.good[-max(keep, 1):], self.fullest)}
        return [record for record in self.good if record.number not in stay and not record.pinned]

    def from_future(self, now: float) -> list[Record]:
        return [record for record in self.records if record.time > now + CLOCK_SLACK_SECONDS]


def record_file(folder: str, name: str) -> Path:
    return Path(folder, name).with_suffix(".json")


def record_of(folder: str, name: str) -> Record | None:
    """A backup's record, or None if it is missing or damaged."""
    try:
        found = read_json(record_file(folder, name))
        known = {place.name: place.type for place in fields(Record)}
        record = Record(**{key: value for key, value in found.items() if key in known})
        is_right = record.file == name and all(type(value) is known[key] for key, value in asdict(record).items())
        return record if is_right and record.number != 0 else None
    except (OSError, ValueError, TypeError, AttributeError):
        return None


def is_regular(file: Path) -> bool:
    return stat.S_ISREG(os.stat(file, follow_symlinks=False).st_mode)


def read(folder: str) -> Archive:
    """The archive as it is."""
    names = sorted(file.name for file in Path(folder).glob(PATTERN) if is_regular(file))
    found = {name: record_of(folder, name) for name in names}
    records = sorted((record for record in found.values() if record), key=lambda record: (record.number, record.file))
    unrecorded = sorted((name for name, record in found.items() if record is None), key=lambda name: (Path(folder, name).stat().st_mtime, name))
    return Archive(records, unrecorded)


def save(folder: str, record: Record) -> None:
    write_json(record_file(folder, record.file), asdict(record), 0o600)


def note(folder: str, archive: Archive) -> None:
    """Writes last-good.json for `watch`."""
    newest, fullest = archive.newest, archive.fullest
    if newest is not None:
        write_json(Path(folder, NOTE), {"time": newest.time, "file": newest.file, "subjects": newest.subjects, "versions": newest.versions,
                                        "schemas": newest.schemas, "expected": newest.expected,
                                        "fullest": {"file": fullest.file, "schemas": fullest.schemas}}, 0o600)


def counted(record: Record, before: Archive, accepted: str) -> Record:
    """The record with its number, and with the baseline of the backup before or, if fewer schemas are accepted, its own."""
    number = max((earlier.number for earlier in before.records if earlier.number > 0), default=0) + 1
    last = before.newest
    if accepted or last is None:
        return replace(record, number=number, baseline=number, expected=record.schemas, accepted=accepted)
    return replace(record, number=number, baseline=last.baseline, expected=max(last.expected, record.schemas))


@contextlib.contextmanager
def locked(folder: str) -> Iterator[None]:
    """One backup at a time. The folder itself is locked, until this process ends."""
    descriptor = os.open(folder, os.O_RDONLY | os.O_DIRECTORY | os.O_CLOEXEC)
    try:
        fcntl.flock(descriptor, fcntl.LOCK_EX | fcntl.LOCK_NB)
        yield
    except BlockingIOError:
        raise Stop(BUSY, f"another backup to {folder} runs") from None
    finally:
        os.close(descriptor)


def free_name(folder: str, now: float) -> str:
    """The name of a new backup. Two in a second get different names."""
    stem = time.strftime("registry-%Y%m%dT%H%M%SZ", time.gmtime(now))
    names = (f"{stem}.db", *(f"{stem}-{number}.db" for number in range(2, 100)))
    return next(name for name in names if not os.path.lexists(Path(folder, name)))


def digest_of(file: Path | str) -> str:
    with open(file, "rb") as opened:
        return hashlib.file_digest(opened, "sha256").hexdigest()


def remove(folder: str, record: Record) -> None:
    for file in (Path(folder, record.file), record_file(folder, record.file)):
        file.unlink(missing_ok=True)


def remove_orphans(folder: str) -> None:
    """Removes the records whose backup was removed by hand, or never named because the run was killed."""
    for record in Path(folder).glob("registry-*.json"):
        if not os.path.lexists(record.with_suffix(".db")):
            record.unlink()


@task
def listed(folder: str) -> dict:
    """All records in their order, and the names of the newest, of the fullest, of those from the future, and without a record."""
    archive = read(folder)
    name_of = {"newest": archive.newest, "fullest": archive.fullest}
    return {"records": [asdict(record) for record in archive.records], "unrecorded": archive.unrecorded,
            "future": [record.file for record in archive.from_future(time.time())],
            **{key: record.file if record else None for key, record in name_of.items()}}


@task
def prune(folder: str, keep: int, is_dry: bool = False) -> list:
    """Removes old backups. Returns the records of those that went, or that would go."""
    with locked(folder):
        archive = read(folder)
        going = archive.removable(keep)
        if not is_dry:
            for record in going:
                remove(folder, record)
            sync_folder(folder)
            note(folder, read(folder))
    return [asdict(record) for record in going]


@task
def pin(folder: str, name: str, reason: str) -> None:
    """Keeps a backup until it is unpinned with an empty reason."""
    with locked(folder):
        record = record_of(folder, os.path.basename(name))
        if record is None:
            raise Stop(NO, f"{folder} has no backup {name}", "avroreg-admin backups")
        save(folder, replace(record, pinned=reason))
