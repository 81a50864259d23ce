"""The tasks that write a registry's mark. They run as the registry's user."""

import errno
import os
from pathlib import Path

from . import guard, mark, wal
from .files import sync_folder, write_json
from .hands import task


def path_of(database: str) -> str:
    return os.path.join(os.path.dirname(database), "registry.mark")


@task
def read(database: str) -> dict | None:
    return mark.read(path_of(database))


@task
def examine(name: str, root: str) -> dict | None:
    """What the guard would refuse now: its id, its text and the next commands."""
    refusal, _ = guard.examine(name, root)
    return {"id": refusal.id, "text": refusal.text, "next": list(refusal.commands)} if refusal else None


@task
def put(database: str, place: str, job: str | None = None) -> dict:
    """Marks F as it lies there, stopped. A command that put F in place calls this last; the guard then lets its job's start through."""
    made = mark.of_stopped(database, place, job)
    sync_folder(os.path.dirname(database))
    write_json(path_of(database), made, 0o600)
    return made


def is_full(error: OSError) -> bool:
    """A full disk is no reason to stop a server that serves reads. The mark stays the one of before."""
    return error.errno in (errno.ENOSPC, errno.EDQUOT)


@task
def note_started(database: str, place: str, launch: str, pid: int) -> bool:
    """Marks F as served: from now on a log must be there. False if the disk is full."""
    log = database + "-wal"
    header = wal.valid_header(Path(log))
    before = mark.read(path_of(database)) or {}
    made = {"place": place, "state": mark.RUNNING, "log": True, "inode": os.stat(database, follow_symlinks=False).st_ino, "size": None, "time": None,
            "header": header.hex() if header else None, "job": before.get("job"),
            "launch": launch, "pid": pid}
    try:
        sync_folder(os.path.dirname(database))
        write_json(path_of(database), made, 0o600)
    except OSError as error:
        if not is_full(error):
            raise
        return False
    return True


@task
def note_ended(database: str, has_exited: bool) -> dict | None:
    """Marks F as stopped. If the program ended by itself, it has copied the log into F.

    If F isn't the served file any more, its inode, size and time stay, so that the guard notices.
    """
    found = mark.read(path_of(database))
    if found is None:
        return None
    log, now = database + "-wal", mark.stat_of(database)
    found["state"] = mark.STOPPED
    if mark.stat_of(log) is not None or has_exited:
        found["log"] = mark.has_frames(log)
    if now is not None and now.st_ino == found["inode"]:
        found |= {"size": now.st_size, "time": now.st_mtime_ns}
    write_json(path_of(database), found, 0o600)
    return found


@task
def note_rescued(database: str, copy: str | None) -> None:
    """Notes the copy that `before-stop` made of removed files. None: the server has gone on since then."""
    write_json(path_of(database), (mark.read(path_of(database)) or {}) | {"rescued": copy}, 0o600)


@task
def allow(database: str, job: str) -> None:
    """Lets the starts of this job through, for a job that leaves F where it is."""
    found = mark.read(path_of(database))
    write_json(path_of(database), found | {"job": job}, 0o600)
