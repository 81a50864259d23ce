"""When backups are made: a drop-in of the timer, and the interval that the alert on an old backup uses."""

import subprocess
from datetime import datetime
from pathlib import Path

from . import settings
from .files import write_text
from .output import ERROR, USAGE, Stop
from .places import Place, Service


def runs_of(calendar: str) -> list[datetime]:
    """The next runs of a calendar expression of systemd."""
    ran = subprocess.run(["systemd-analyze", "calendar", "--iterations=8", "--", calendar], capture_output=True, text=True, env={"PATH": "/usr/bin:/bin", "TZ": "UTC"})
    if ran.returncode != 0:
        raise Stop(USAGE, f"{calendar!r} is no calendar expression of systemd, such as *-*-* 02:30")
    words = [line.split() for line in ran.stdout.splitlines() if line.strip().startswith(("Next elapse:", "Iter. #", "Iteration #"))]
    return [datetime.strptime(" ".join(line[-3:-1]), "%Y-%m-%d %H:%M:%S") for line in words]


def longest_interval(runs: list[datetime]) -> int:
    """The longest time between two runs, in seconds."""
    return int(max((later - earlier).total_seconds() for earlier, later in zip(runs, runs[1:])))


def drop_in(place: Place) -> Path:
    return place.root / f"etc/systemd/system/{place.units[1]}.d/schedule.conf"


def change(place: Place, calendar: str) -> str:
    """Sets when the timer runs. Returns a text."""
    runs = runs_of(calendar)
    if len(runs) < 2:
        raise Stop(USAGE, f"{calendar!r} comes only once")
    file = drop_in(place)
    file.parent.mkdir(parents=True, exist_ok=True)
    write_text(file, f"[Timer]\nOnCalendar=\nOnCalendar={calendar}\n")
    settings.change(place.settings_file, {"BACKUP_INTERVAL": str(longest_interval(runs))})
    for words in (["daemon-reload"], ["try-restart", place.units[1]]):
        if isinstance(place, Service) and subprocess.run(["systemctl", *words], capture_output=True).returncode != 0:
            raise Stop(ERROR, f"systemctl {' '.join(words)} failed")
    return f"backups are made at {calendar}, at most every {longest_interval(runs) // 3600} hours"
