"""Brings a registry's file that a person names into the folder of the registry's user."""

import os
import re
import shutil
import stat
import subprocess
from datetime import datetime
from pathlib import Path

from . import archive, removed
from .files import read_json
from .hands import task
from .output import ERROR, NO, USAGE, Stop
from .places import Place

FOLDER, FETCHED = "incoming", "fetched"  # below the folder of jobs, and below root's folder
SUFFIXES = ("", "-wal")
TIME = re.compile(r"registry-(\d{8}T\d{6}Z)(-\d+)?\.db")
REMOTE = re.compile(r"[A-Za-z0-9_][A-Za-z0-9_.@-]*:[^\n\0]+")


@task
def can_read(file: str) -> bool:
    """Whether the registry's user can read the file and its log."""
    return os.path.isfile(file) and all(os.access(file + suffix, os.R_OK) for suffix in SUFFIXES if os.path.lexists(file + suffix))


@task
def make_folder(folder: str) -> None:
    shutil.rmtree(folder, ignore_errors=True)
    os.makedirs(folder, mode=0o700)


@task
def remove_folder(folder: str) -> None:
    shutil.rmtree(folder, ignore_errors=True)


def refuse_foreign(file: Path) -> None:
    """Root reads a file only if nobody else could have put it, or a link, there."""
    for part in (file, *file.parents):
        found = os.stat(part, follow_symlinks=False)
        is_shared = found.st_mode & 0o022 and not found.st_mode & stat.S_ISVTX
        if stat.S_ISLNK(found.st_mode) or found.st_uid not in (0, os.geteuid()) or is_shared:
            raise Stop(NO, f"others than root can change {part}: copy the file to a folder of root")


def bring(place: Place, file: Path, folder: Path) -> str:
    """The path at which the registry's user can read the file: its own, or a copy in this folder."""
    file = file.absolute()
    if place.hands(can_read, file=file):
        return str(file)
    if not os.path.lexists(file):
        raise Stop(NO, f"there is no file {file}")
    place.hands(make_folder, folder=folder)
    for suffix in SUFFIXES:
        source = Path(f"{file}{suffix}")
        if os.path.lexists(source):
            refuse_foreign(source)
            removed.copy(place, str(source), f"{folder}/registry.db{suffix}")
    return f"{folder}/registry.db"


def time_of(file: Path) -> str | None:
    """When a backup was made, by its record, else by its name. Not by the file's own time, which a copy changes."""
    try:
        record = read_json(file.with_suffix(".json"))
        return datetime.fromtimestamp(record["time"]).astimezone().isoformat()
    except (OSError, ValueError, TypeError, KeyError):
        found = TIME.fullmatch(file.name)
        return datetime.fromisoformat(found[1]).isoformat() if found else None


def forget(place: Place) -> None:
    """Removes what was brought for a restore that has ended."""
    place.hands(remove_folder, folder=place.jobs / FOLDER)
    shutil.rmtree(place.state / FETCHED, ignore_errors=True)


def fetch(place: Place, remote: str) -> Path:
    """Copies the backups of another machine to a folder of root."""
    if not REMOTE.fullmatch(remote):
        raise Stop(USAGE, f"{remote} isn't HOST:DIR")
    if shutil.which("rsync") is None:
        raise Stop(NO, "there is no rsync here: apt install rsync")
    folder = place.state / FETCHED
    folder.mkdir(mode=0o700, parents=True, exist_ok=True)
    result = subprocess.run(["rsync", "-rt", "--no-links", "--include=/registry-*.db", "--include=/registry-*.json", "--exclude=*", "--",
                             remote.rstrip("/") + "/", str(folder)], capture_output=True, text=True)
    if result.returncode != 0:
        raise Stop(ERROR, f"rsync from {remote} failed: {' '.join(result.stderr.split())[:300]}")
    if not archive.read(str(folder)).records:
        raise Stop(NO, f"{remote} has no backup with a record: copy one, and name it with --file")
    return folder
