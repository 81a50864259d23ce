"""The mark of a registry: registry.mark, next to F. The guard compares it with what it finds.

    place    the random id that /var/lib/avroreg-admin/NAME/registry.json has too
    state    running: noted once the server responded; stopped: noted after it ended, or by a command
    log      whether a log must be there: the newest writes may be in it alone
    inode    of F
    size     of F, and
    time     of F's last change in nanoseconds, when it was stopped
    header   of the log at the start, in hexadecimal
    job      the id of the job that put F in place; its start is let through
    launch   systemd's id of the last start that responded; None if no client could write since a command put F in place
    pid      of the server that runs or ran
    rescued  the copy of removed files that `before-stop` made, if it did

The guard loads this module, so it imports little.
"""

import json
import os

RUNNING, STOPPED = "running", "stopped"
FIRST_FRAME_BYTES = 56  # a shorter log has no frame


def read(path: str) -> dict | None:
    """The mark, or None if there is none. A damaged one raises ValueError."""
    try:
        descriptor = os.open(path, os.O_RDONLY | os.O_NOFOLLOW | os.O_NONBLOCK | os.O_CLOEXEC)
    except FileNotFoundError:
        return None
    with open(descriptor, encoding="utf-8") as file:
        found = json.load(file)
    if not isinstance(found, dict) or not isinstance(found.get("place"), str):
        raise ValueError(f"{path} is no mark")
    return found


def stat_of(path: str) -> os.stat_result | None:
    """The file, without following a link; None if there is none."""
    try:
        return os.stat(path, follow_symlinks=False)
    except (FileNotFoundError, NotADirectoryError):
        return None


def has_frames(log: str) -> bool:
    found = stat_of(log)
    return found is not None and found.st_size >= FIRST_FRAME_BYTES


def of_stopped(database: str, place: str, job: str | None = None) -> dict:
    """The mark of a file that was put in place, or that was stopped. A log with frames belongs to it."""
    found = os.stat(database, follow_symlinks=False)
    return {"place": place, "state": STOPPED, "log": has_frames(database + "-wal"), "inode": found.st_ino, "size": found.st_size,
            "time": found.st_mtime_ns, "header": None, "job": job, "launch": None}
