"""Puts a draft in the place of a registry's file, and takes it back. Nothing is deleted.

A job has a folder jobs/ID with `new`, where the draft is, and `old`, for the files that it replaces.
Every step is a rename within the registry's folder, so a kill leaves each file at one of its places.
F moves before F-wal, and comes back after it: F-wal never meets another F.
"""

import contextlib
import fcntl
import os
import shutil
from collections.abc import Iterator

from . import mark, marking
from .files import read_json, sync_folder, write_json
from .hands import task
from .output import ERROR, NO, Stop

SUFFIXES = ("", "-wal", "-journal")  # the journal is of another SQLite program, and may not meet the new F
LOCK_START, LOCK_BYTES = 1 << 30, 512  # the bytes that SQLite locks
READY = "ready.json"


def parts_of(database: str) -> list[str]:
    """The file, its log and its journal, whether they exist or not."""
    return [database + suffix for suffix in SUFFIXES]


def existing(paths: list[str]) -> list[str]:
    return [path for path in paths if os.path.lexists(path)]


def in_folder(folder: str, name: str, path: str) -> str:
    """The place of a file in `old` or `new` of a job's folder."""
    return os.path.join(folder, name, os.path.basename(path))


def refuse_links(database: str) -> None:
    """A link could lead anywhere. F, its log and its journal are files."""
    for part in existing(parts_of(database)):
        if os.path.islink(part):
            raise Stop(NO, f"{part} is a link: put the file itself there")


@contextlib.contextmanager
def locked(database: str) -> Iterator[None]:
    """Holds SQLite's lock of F and F-wal, so that no avroreg opens them meanwhile."""
    files = []
    try:
        for part in existing(parts_of(database)):
            files.append(open(os.open(part, os.O_RDWR | os.O_NOFOLLOW | os.O_NONBLOCK | os.O_CLOEXEC), "r+b"))
            try:
                fcntl.lockf(files[-1], fcntl.LOCK_EX | fcntl.LOCK_NB, LOCK_BYTES, LOCK_START)
            except OSError:
                raise Stop(ERROR, f"another program has {part} open: stop it. `fuser -v {part}` shows the process") from None
        yield
    finally:
        for file in files:
            file.close()


def ready_of(folder: str) -> dict | None:
    """What the draft has, once it is whole."""
    return read_json(os.path.join(folder, "new", READY))


def is_moved(database: str, folder: str) -> bool:
    """Whether the draft is at F: a rename keeps its inode. The names alone don't tell, since `undo` puts the old F back."""
    ready, found = ready_of(folder), mark.stat_of(database)
    return ready is not None and found is not None and found.st_ino == ready["inode"]


@task
def state(database: str, folder: str, job: str) -> dict:
    """How far a job came, by the files: a draft is ready, is in place with its mark, and was served."""
    ready, found = ready_of(folder), mark_of(database)
    is_marked = found.get("job") == job
    moved = is_moved(database, folder)
    return {"drafted": ready is not None, "swapped": moved and is_marked, "served": moved and is_marked and was_served(found), "ready": ready}


def mark_of(database: str) -> dict:
    """The mark, or nothing if it is missing or damaged."""
    try:
        return mark.read(marking.path_of(database)) or {}
    except (OSError, ValueError):
        return {}


def was_served(found: dict) -> bool:
    """Whether the server responded since the mark was put: then clients may have written."""
    return found.get("launch") is not None


def mixed(database: str, folder: str) -> list[str]:
    """The parts of F that are in `old` too, although the draft isn't in place: another program made them."""
    return [part for part in existing(parts_of(database)) if os.path.lexists(in_folder(folder, "old", part))]


@task
def swap(database: str, folder: str, place: str, job: str) -> None:
    """Moves F, its log, its journal and its mark to `old`, the draft to F, and marks it. May be repeated after a kill."""
    refuse_links(database)
    if not is_moved(database, folder):
        if ready_of(folder) is None:
            raise Stop(ERROR, f"there is no draft in {folder}")
        if found := mixed(database, folder):
            raise Stop(ERROR, f"another program made {found[0]} meanwhile: stop it, and move its file away")
        move_in(database, folder)
    marking.put(database, place, job)


def move_in(database: str, folder: str) -> None:
    os.makedirs(os.path.join(folder, "old"), mode=0o700, exist_ok=True)
    with locked(database):
        for part in existing([*parts_of(database), marking.path_of(database)]):
            os.rename(part, in_folder(folder, "old", part))
        if left := existing(parts_of(database)):
            raise Stop(ERROR, f"another program made {left[0]} meanwhile: stop it")
        os.rename(in_folder(folder, "new", database), database)
    for changed in (os.path.join(folder, "old"), os.path.join(folder, "new"), os.path.dirname(database)):
        sync_folder(changed)


@task
def put_back(database: str, folder: str, job: str) -> None:
    """Moves the draft back to `new`, and the old files to their places. F moves last, and then its mark. May be repeated."""
    old_parts = existing([in_folder(folder, "old", part) for part in parts_of(database)])
    if is_moved(database, folder):
        with locked(database):
            for part in reversed(existing(parts_of(database))):  # until F has moved, `is_moved` holds
                os.rename(part, in_folder(folder, "new", part))
    elif found := mixed(database, folder):
        raise Stop(ERROR, f"another program made {found[0]}: stop it, and move its file away")
    remove_mark(database, folder, job)
    for part in reversed(old_parts):
        os.rename(part, os.path.join(os.path.dirname(database), os.path.basename(part)))
    old_mark = in_folder(folder, "old", marking.path_of(database))
    if os.path.lexists(old_mark):
        os.rename(old_mark, marking.path_of(database))
    sync_folder(os.path.dirname(database))
    if mark_of(database):
        marking.allow(database, job)


def remove_mark(database: str, folder: str, job: str) -> None:
    """Removes the draft's mark, which fits no other file."""
    found, draft = mark_of(database), mark.stat_of(in_folder(folder, "new", database))
    if found.get("job") == job and draft is not None and found.get("inode") == draft.st_ino:
        os.unlink(marking.path_of(database))
        sync_folder(os.path.dirname(database))


@task
def remove_draft(folder: str) -> None:
    """Removes the draft, and the job's folder if nothing else is in it."""
    with contextlib.suppress(FileNotFoundError):
        os.unlink(os.path.join(folder, "new", READY))
    shutil.rmtree(os.path.join(folder, "new"), ignore_errors=True)
    with contextlib.suppress(FileNotFoundError):
        for name in ("old", ""):
            left = os.path.join(folder, name)
            if os.path.isdir(left) and not os.listdir(left):
                os.rmdir(left)


@task
def finish_draft(folder: str, ready: dict) -> None:
    """Notes that the draft, the only file in `new`, is whole."""
    new = os.path.join(folder, "new")
    (draft,) = (entry for entry in os.scandir(new) if entry.name != READY)
    write_json(os.path.join(new, READY), ready | {"inode": draft.inode()}, 0o600)
