"""Small files that survive a power cut, and calls that don't follow planted links."""

import json
import os
from pathlib import Path

NO_LINK = os.O_NOFOLLOW | os.O_CLOEXEC


def sync_folder(folder: Path | str) -> None:
    descriptor = os.open(folder, os.O_RDONLY | os.O_DIRECTORY | os.O_CLOEXEC)
    try:
        os.fsync(descriptor)
    finally:
        os.close(descriptor)


def write_text(path: Path | str, text: str, mode: int = 0o644) -> None:
    """Replaces the file: written new, synced, renamed, and the folder is synced."""
    path = Path(path)
    draft = path.with_name(path.name + ".new")
    draft.unlink(missing_ok=True)  # of a run that was killed
    descriptor = os.open(draft, os.O_WRONLY | os.O_CREAT | os.O_EXCL | NO_LINK, mode)
    with open(descriptor, "w", encoding="utf-8") as file:
        os.fchmod(descriptor, mode)
        file.write(text)
        file.flush()
        os.fsync(descriptor)
    os.replace(draft, path)
    sync_folder(path.parent)


def write_json(path: Path | str, value, mode: int = 0o644) -> None:
    write_text(path, json.dumps(value, ensure_ascii=False, indent=1) + "\n", mode)


def read_json(path: Path | str):
    """The file's value, or None if there is no such file. A file that isn't JSON raises ValueError."""
    try:
        descriptor = os.open(path, os.O_RDONLY | os.O_NONBLOCK | NO_LINK)
    except FileNotFoundError:
        return None
    with open(descriptor, encoding="utf-8") as file:
        return json.load(file)


def append_line(path: Path | str, line: str, mode: int = 0o640) -> None:
    descriptor = os.open(path, os.O_WRONLY | os.O_CREAT | os.O_APPEND | NO_LINK, mode)
    with open(descriptor, "a", encoding="utf-8") as file:
        file.write(line + "\n")


def remove(path: Path | str) -> None:
    """Removes a file if it is there, and syncs its folder."""
    try:
        os.unlink(path)
    except FileNotFoundError:
        return
    sync_folder(os.path.dirname(path))
