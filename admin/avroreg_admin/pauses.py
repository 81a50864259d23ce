"""Who paused writes. nginx answers writes with 503 while one of two files exists: one of `watch`, one of commands."""

import json
import time
from dataclasses import dataclass
from pathlib import Path

from .files import read_json, remove, write_text
from .hands import task
from .places import Place

DISK_FULL, STORE_FAILED = "disk-full", "store-failed"


@dataclass(frozen=True)
class Pause:
    by: str
    reason: str
    since: float


def watch_file(place: Place) -> Path:
    """The file of `watch`, in a folder of the registry's user."""
    return place.root / "run/avroreg" / place.name / "paused"


def read(file: Path, otherwise: str) -> Pause | None:
    try:
        found = read_json(file)
        return None if found is None else Pause(str(found.get("person", otherwise)), str(found["reason"]), float(found["since"]))
    except (ValueError, KeyError, TypeError, AttributeError):
        return Pause(otherwise, "not known", file.stat().st_mtime)


def of_watch(place: Place) -> Pause | None:
    return read(watch_file(place), "watch")


def of_command(place: Place) -> Pause | None:
    return read(place.paused_file, "somebody")


def found(place: Place) -> list[Pause]:
    return [pause for pause in (of_watch(place), of_command(place)) if pause]


@task
def begin(file: str, reason: str) -> None:
    """Pauses writes. An earlier pause keeps its time."""
    if not Path(file).exists():
        write_text(file, json.dumps({"person": "watch", "reason": reason, "since": time.time()}) + "\n")


@task
def end(file: str) -> None:
    remove(file)
