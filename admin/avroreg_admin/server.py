"""The process that serves a registry: its pid, its memory, its processor time.

The control group of its unit tells them in a sandbox too, where neither systemd nor the other user
namespaces of /proc can be asked.
"""

import os
from dataclasses import dataclass
from pathlib import Path

from .places import Local, Place

SLICE = "sys/fs/cgroup/system.slice"
TEMPLATES = ("system-avroreg.slice", r"system-avroreg\x2dcontainer.slice")


@dataclass(frozen=True)
class Usage:
    """What the server uses. None: not known."""

    resident: int | None = None  # bytes
    limit: int | None = None  # MemoryMax in bytes
    out_of_memory: int = 0  # how often the kernel killed it for its memory since the unit's start
    processor: float | None = None  # seconds


def group_of(place: Place) -> Path | None:
    """The control group of the unit, or None if it doesn't run."""
    if isinstance(place, Local):
        return None
    unit = f"{place.unit}.service"
    folders = [Path("/", SLICE, unit), *(Path("/", SLICE, parent, unit) for parent in TEMPLATES)]
    return next((folder for folder in folders if folder.is_dir()), None)


def pid_of(place: Place) -> int | None:
    """The pid of the server, or None. While the unit starts or stops, its group has more processes: None too.

    So watch doesn't wake a server that `before-stop` has suspended.
    """
    group = group_of(place)
    if group is None:
        return place.process() if isinstance(place, Local) else None
    if not place.launch_file.exists():
        return None  # only the guard runs, or what notes the end
    return only_one(read(group / "cgroup.procs"))


def only_one(pids: str) -> int | None:
    found = pids.split()
    return int(found[0]) if len(found) == 1 else None


def read(path: Path) -> str:
    try:
        return path.read_text(encoding="utf-8")
    except OSError:
        return ""


def values_of(text: str) -> dict[str, int]:
    """Lines of a name and a number."""
    rows = (line.split() for line in text.splitlines())
    return {row[0]: int(row[1]) for row in rows if len(row) == 2 and row[1].isdigit()}


def usage_of(place: Place, pid: int | None) -> Usage:
    group = group_of(place)
    if group is not None:
        limit, processor = read(group / "memory.max").strip(), values_of(read(group / "cpu.stat")).get("usage_usec")
        return Usage(values_of(read(group / "memory.stat")).get("anon"), int(limit) if limit.isdigit() else None,
                     values_of(read(group / "memory.events")).get("oom_kill", 0), None if processor is None else processor / 1e6)
    if pid is None:
        return Usage()
    pages, times = read(Path(f"/proc/{pid}/statm")).split(), read(Path(f"/proc/{pid}/stat")).rpartition(")")[2].split()
    if len(pages) < 2 or len(times) < 13:
        return Usage()
    return Usage(int(pages[1]) * os.sysconf("SC_PAGE_SIZE"), None, 0, (int(times[11]) + int(times[12])) / os.sysconf("SC_CLK_TCK"))
