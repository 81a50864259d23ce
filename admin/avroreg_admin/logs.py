"""Show the messages of avroreg, its backups, its watch and its commands, and with `--writes` those of nginx's requests that changed something."""

import json
import subprocess

from . import nginx_cache, places
from .output import DONE, ERROR, NO, Stop

NEWEST = 100


def add(parser) -> None:
    parser.add_argument("-f", "--follow", action="store_true", help="wait for new messages")
    parser.add_argument("--since", metavar="TIME", help="such as '09:00', '2 hours ago' or '2026-11-28 02:00'")
    parser.add_argument("--writes", action="store_true", help="the writes in nginx's log: time, user, request, status")


def run(context) -> int:
    if context.options.writes:
        return show_writes(context)
    words = ["journalctl", "--quiet", "--no-hostname", "--output=short-iso", "--no-pager", *matches(context.place)]
    words += ["--since", context.options.since] if context.options.since else ["-n", str(NEWEST)]
    words += ["--follow"] if context.options.follow else []
    try:
        status = subprocess.run(words).returncode
    except FileNotFoundError:
        raise Stop(ERROR, "there is no journalctl here") from None
    except KeyboardInterrupt:
        status = 0
    return DONE if status == 0 else ERROR


def matches(place) -> list[str]:
    """What journalctl shows: the three units, what systemd says of them, and the commands of avroreg-admin."""
    instance = "" if place.name == places.DEFAULT else f"@{place.name}"
    units = [f"{unit}{instance}.service" for unit in ("avroreg", "avroreg-backup", "avroreg-watch")]
    groups = [[f"{field}={unit}"] for unit in units for field in ("_SYSTEMD_UNIT", "UNIT")] + [["SYSLOG_IDENTIFIER=avroreg-admin"]]
    return [word for number, group in enumerate(groups) for word in (["+"] if number else []) + group]


def is_write(entry: dict) -> bool:
    """Registrations, deletions, levels and modes; lookups and checks change nothing."""
    method, path = entry.get("method"), str(entry.get("path", "")).partition("?")[0].rstrip("/")
    return method in ("PUT", "DELETE") or method == "POST" and path.startswith("/subjects/") and path.endswith("/versions")


def show_writes(context) -> int:
    file = context.place.access_log
    if not file.exists():
        raise Stop(NO, f"there is no {file}: nginx isn't in front of this registry")
    for line in nginx_cache.text_of(file).splitlines():
        try:
            entry = json.loads(line)
        except ValueError:
            continue
        if isinstance(entry, dict) and is_write(entry):
            context.output.text(f"{entry.get('time', '-')}  {entry.get('user') or '-'}  {entry.get('method')} {entry.get('path')}  {entry.get('status')}")
    return DONE
