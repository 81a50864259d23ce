"""What `watch` remembers. seen.json, next to the metrics, survives a boot: the greatest id, and the last valid header of the log.

watch.json, next to its pause file, is in memory, so it can be written on a full disk: what it saw in
the last minutes, and when it restarted the server.
"""

import errno
import time
from dataclasses import asdict, dataclass, field, fields
from pathlib import Path

from . import mark, wal
from .files import read_json, write_json
from .hands import task
from .places import Place

HOLES = 16  # ids in a row that no version has
LONGEST_SEARCH = 5  # seconds
FULL = (errno.ENOSPC, errno.EDQUOT)


@dataclass
class Recent:
    """watch.json."""

    restarts: list[float] = field(default_factory=list)  # in the last hour
    silent_since: float | None = None  # the server hasn't responded since then
    silent_processor: float | None = None  # the seconds of the processor that it had used then
    pid: int | None = None
    launch: str | None = None  # of the mark: the start that the next one belongs to
    log: int | None = None  # the inode of the log


def recent_file(place: Place) -> Path:
    return place.root / "run/avroreg" / place.name / "watch.json"


def read(path: Path) -> dict:
    """A file of `watch`, or nothing if it is missing or damaged."""
    try:
        found = read_json(path)
    except (OSError, ValueError):
        return {}
    return found if isinstance(found, dict) else {}


def recent_of(place: Place) -> Recent:
    """What is of another kind than it should be is left out: the registry's user writes the file, and root reads it."""
    found = read(recent_file(place))
    recent = Recent()
    for each in fields(Recent)[1:]:
        value = found.get(each.name)
        if isinstance(value, str if each.name == "launch" else int | float) and not isinstance(value, bool):
            setattr(recent, each.name, value)
    if isinstance(found.get("restarts"), list):
        recent.restarts = [at for at in found["restarts"] if isinstance(at, int | float)]
    return recent


@task
def save(file: str, value: dict) -> bool:
    """Replaces a file of `watch`. False if the disk is full."""
    try:
        write_json(file, value)
    except OSError as error:
        if error.errno not in FULL:
            raise
        return False
    return True


def save_recent(place: Place, recent: Recent) -> None:
    place.hands(save, file=recent_file(place), value=asdict(recent))


@task
def look(database: str) -> dict:
    """The registry's file and its log as they lie there, the mark, and the log's header if it is valid."""
    log = wal.log_of(database)
    file, log_file = mark.stat_of(database), mark.stat_of(log)
    try:
        noted = mark.read(str(Path(database).with_name("registry.mark")))
    except (OSError, ValueError):
        noted = None
    header = wal.valid_header(log) if log_file else None
    return {"database": file and {"inode": file.st_ino, "size": file.st_size, "links": file.st_nlink}, "mark": noted,
            "log": log_file and {"inode": log_file.st_ino, "size": log_file.st_size}, "header": header and header.hex()}


def misplaced(looked: dict, recent: Recent) -> list[str]:
    """The names of files that aren't those which the running server opened."""
    noted = looked["mark"] or {}
    names = []
    if looked["database"] is None or noted.get("inode") not in (None, looked["database"]["inode"]):
        names.append("registry.db")
    is_same_start = recent.launch is not None and recent.launch == noted.get("launch")
    if looked["log"] is None or is_same_start and recent.log not in (None, looked["log"]["inode"]):
        names.append("registry.db-wal")
    return names


def greatest_id(place: Place, least: int) -> int:
    """The greatest id that the server has, searched from a known one. It goes on at the next run if it takes long."""
    greatest, number, end = least, least + 1, time.monotonic() + LONGEST_SEARCH
    while number <= greatest + HOLES and time.monotonic() < end:
        status, _ = place.ask("GET", f"/schemas/ids/{number}")
        if status not in (200, 404):
            break
        greatest = number if status == 200 else greatest
        number += 1
    return greatest
