"""Makes checked backups: copies, audits, counts, and only then names them.

A copy is made and audited in a folder `unfinished-*` next to the backups. So each registry-TIME.db
has passed its audit, even if a run was killed.
"""

import contextlib
import os
import shutil
import tempfile
import time
from collections.abc import Iterator
from dataclasses import asdict, replace
from pathlib import Path

from . import archive, hot_copy, program, swap
from .archive import FAILS, HOLDS, UNFINISHED, Archive, Record
from .files import sync_folder
from .hands import task
from .output import ERROR, NO, Stop
from .wal import log_of

EVIDENCE_HOLDS = "evidence holds"
NO_BASELINE = -1 << 31
SUFFIXES = ("", "-wal")


@contextlib.contextmanager
def unfinished(folder: str) -> Iterator[Path]:
    """A folder for a copy. The archive is locked, so what an earlier run left is removed."""
    for left in Path(folder).glob(UNFINISHED + "*"):
        shutil.rmtree(left) if left.is_dir() else left.unlink(missing_ok=True)
    with tempfile.TemporaryDirectory(prefix=UNFINISHED, dir=folder) as made:
        yield Path(made)


def check_space(database: str, folder: str, floor: int) -> None:
    """Refuses a copy that would fill the disk."""
    needed = floor + sum(os.path.getsize(database + suffix) for suffix in SUFFIXES if os.path.exists(database + suffix))
    free = shutil.disk_usage(folder).free
    if free < needed:
        raise Stop(NO, f"{folder} has {free >> 20} MB free, and a backup needs {(needed >> 20) + 1} MB", "avroreg-admin backups prune --keep 3")


def plain_copy(source: str, target: str) -> None:
    """Copies a registry that nobody serves, with its log if it has one."""
    for suffix in SUFFIXES:
        if os.path.exists(source + suffix):
            hot_copy.copy_file(source + suffix, target + suffix)


def copy(database: str, target: str, process: int | None) -> None:
    """Copies the registry, served or stopped. A stopped one may have no log. Then nobody may have it open, and it may not change meanwhile."""
    if process is not None or os.path.lexists(log_of(database)):
        hot_copy.copy(database, target, process=process)
        return
    with swap.locked(database):
        before = os.stat(database)
    plain_copy(database, target)
    after = os.stat(database)
    if os.path.lexists(log_of(database)) or (before.st_ino, before.st_size, before.st_mtime_ns) != (after.st_ino, after.st_size, after.st_mtime_ns):
        raise Stop(ERROR, f"avroreg started while {database} was copied. Back up again", "avroreg-admin backup")


def audited(avroreg: str, copied: str) -> str:
    """Why the audit of a copy failed, or an empty text. The copy is one file afterwards."""
    found = program.audit(avroreg, copied)
    if found["status"] != 0 or found["text"] != EVIDENCE_HOLDS:
        return f"the audit ended with status {found['status']}: {found['text']}"
    left = [name for name in os.listdir(os.path.dirname(copied)) if name != os.path.basename(copied)]
    return f"it still has {left[0]} after its audit" if left else ""


def described(avroreg: str, copied: str, name: str, at: float) -> Record:
    """The record of an audited copy, without its number."""
    counts = {what: len(program.listing(avroreg, copied, what)) for what in ("subjects", "versions", "schemas")}
    return Record(number=0, file=name, time=int(at), bytes=os.path.getsize(copied), sha256=archive.digest_of(copied), **counts)


def adopt(folder: str, avroreg: str) -> list[str]:
    """Makes the records of backups that have none. They count as older than all others. Returns the names whose audit failed."""
    found = archive.read(folder)
    lowest = min((record.number for record in found.records if record.number < 0), default=0)
    failed, expected = [], 0
    for place, name in enumerate(found.unrecorded):
        with unfinished(folder) as made:
            copied, at = made / name, Path(folder, name).stat().st_mtime
            plain_copy(str(Path(folder, name)), str(copied))
            fault = audited(avroreg, str(copied))
            if fault:
                failed.append(f"{name}: {fault}")
                record = Record(0, name, int(at), 0, 0, 0, os.path.getsize(copied), archive.digest_of(copied), audit=FAILS)
            else:
                record = described(avroreg, str(copied), name, at)
                record = replace(record, bytes=os.path.getsize(Path(folder, name)), sha256=archive.digest_of(Path(folder, name)))
        expected = max(expected, record.schemas)
        archive.save(folder, replace(record, number=lowest - len(found.unrecorded) + place, baseline=NO_BASELINE, expected=expected))
    return failed


def problems_of(before: Archive, record: Record) -> list[str]:
    """What a person should know of a good backup."""
    problems = []
    if record.schemas < record.expected:
        fullest = before.fullest
        kept = f"{fullest.file} has {fullest.schemas}, and is kept" if fullest and fullest.schemas > record.schemas else f"an earlier one had {record.expected}"
        problems.append(f"{record.file} has {record.schemas} schemas, and {kept}: avroreg-admin restore --fullest, or avroreg-admin backup --accept-fewer REASON")
    future = before.from_future(time.time())
    if future:
        problems.append(f"{len(future)} backups have a time in the future, such as {future[0].file}: the clock was wrong then, or is wrong now")
    return problems


@task
def make(database: str, folder: str, avroreg: str, keep: int, process: int | None = None, floor: int = 0, **notes: str) -> dict:
    """Makes a backup, and removes old ones. `notes` are fields of its record: accepted, pinned, job, program."""
    if not os.path.isdir(folder):
        raise Stop(NO, f"there is no folder {folder}")
    with archive.locked(folder):
        archive.remove_orphans(folder)
        problems = adopt(folder, avroreg)
        check_space(database, folder, floor)
        before, now = archive.read(folder), time.time()
        name = archive.free_name(folder, now)
        with unfinished(folder) as made:
            copied = str(made / name)
            copy(database, copied, process)
            fault = audited(avroreg, copied)
            if fault:
                raise Stop(ERROR, f"a copy of {database} is removed, because {fault}", "avroreg-admin backup", "avroreg-admin rescue")
            record = replace(archive.counted(described(avroreg, copied, name, now), before, notes.pop("accepted", "")), **notes)
            archive.save(folder, record)
            os.rename(copied, Path(folder, name))
            sync_folder(folder)
        after = archive.read(folder)
        going = after.removable(keep)
        for old in going:
            archive.remove(folder, old)
        archive.note(folder, archive.read(folder))
    return {"record": asdict(record), "removed": [old.file for old in going], "problems": problems + problems_of(before, record)}


@task
def save_to(database: str, target: str, folder: str, avroreg: str, process: int | None = None, floor: int = 0) -> dict:
    """Makes a checked copy with a name of the caller's, outside of the archive's order. `target` is in a folder of this user."""
    with archive.locked(folder):
        check_space(database, folder, floor)
        with unfinished(folder) as made:
            copied = str(made / "copy.db")
            copy(database, copied, process)
            fault = audited(avroreg, copied)
            if fault:
                raise Stop(ERROR, f"a copy of {database} is removed, because {fault}", "avroreg-admin backup", "avroreg-admin rescue")
            record = described(avroreg, copied, os.path.basename(target), time.time())
            hot_copy.copy_file(copied, target)
            sync_folder(os.path.dirname(target))
    return asdict(record)


@task
def verify(folder: str, avroreg: str) -> list:
    """Audits all backups again, and compares their bytes with the records. Returns [name, fault or empty text] of each one."""
    with archive.locked(folder):
        adopt(folder, avroreg)
        results = []
        for record in archive.read(folder).records:
            with unfinished(folder) as made:
                copied = str(made / record.file)
                plain_copy(str(Path(folder, record.file)), copied)
                fault = "" if archive.digest_of(copied) == record.sha256 else "its bytes changed since it was made"
                fault = fault or audited(avroreg, copied)
            archive.save(folder, replace(record, audit=FAILS if fault else HOLDS))
            results.append([record.file, fault])
        archive.note(folder, archive.read(folder))
    return results


@task
def discard(file: str) -> None:
    """Removes a copy that `save_to` made."""
    hot_copy.remove(file)
