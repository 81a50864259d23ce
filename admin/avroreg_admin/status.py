"""Show the registry on one screen: the server, its file, its backups, nginx and the program. Status 1 if `doctor` would name a problem."""

import time

from . import backup, facts, findings, places
from .backups import size_of
from .output import DONE, NO

DAY = 86400


def add(parser) -> None:
    parser.add_argument("--all", action="store_true", help="show all registries of this machine")


def ago(seconds: float) -> str:
    for length, name in ((DAY, "day"), (3600, "hour"), (60, "minute")):
        if seconds >= length:
            count = int(seconds // length)
            return f"{count} {name}{'s' if count > 1 else ''}"
    return f"{max(int(seconds), 0)} seconds"


def rows_of(place, found: facts.Facts) -> list[tuple[str, str]]:
    """The screen: a name and a text in each row."""
    rows = [(found.name, server_row(found))]
    if found.looked and found.looked["database"]:
        log = found.looked["log"]
        rows.append(("file", f"{place.database}, {size_of(found.looked['database']['size'])} and {size_of(log['size'] if log else 0)} log; "
                             f"{size_of(found.free)} free"))
    if found.backups is not None:
        newest = found.newest
        rows.append(("backup", f"good, {ago(found.now - newest['time'])} old, {newest['schemas']:,} schemas" if newest else "none"))
    if found.has_nginx:
        end = f", certificate until {time.strftime('%Y-%m-%d', time.gmtime(found.certificate_end))}" if found.certificate_end else ""
        rows.append(("nginx", f"pauses writes if the disk is full{end}"))
    rows += [("paused", f"by {pause.by} since {findings.clock(pause.since)}: {pause.reason}") for pause in found.pauses]
    rows.append(("program", backup.version_of(place) or place.program))
    return rows


def server_row(found: facts.Facts) -> str:
    if not found.is_known:
        return "there is no registry: avroreg-admin init"
    if found.pid is None:
        return "down"
    if found.probe.status != 200:
        return f"up, but GET /config gets {found.probe.code or found.probe.status or 'no response'}"
    return (f"up, answers in {found.probe.seconds * 1000:.1f} ms on port {found.port}, {found.subjects} subjects, level {found.probe.level}, "
            f"mode {found.mode}")


def show(context, place) -> bool:
    """Shows a registry. Returns whether it has problems."""
    found = facts.gather(place)
    problems = [finding for finding in findings.of(found) if not finding.is_information]
    rows = rows_of(place, found)
    context.output.data({"registry": place.name, "rows": dict(rows), "problems": problems})
    if not context.output.as_json:
        width = max(len(name) for name, _ in rows)
        print("\n".join(f"{name:<{width}}  {text}" for name, text in rows), file=context.output.stream)
    for finding in problems:
        context.output.problem(finding)
    return bool(problems)


def run(context) -> int:
    if not context.options.all:
        return NO if show(context, context.place) else DONE
    bad = []
    for name in places.names():
        place = places.place_of(name)
        try:
            bad.append(show(context, place))
        finally:
            place.close()
    return NO if any(bad) else DONE
