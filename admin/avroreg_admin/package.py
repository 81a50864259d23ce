"""For the scripts of a package.

`package-before` backs up each registry before an upgrade by apt. If it fails, dpkg changes nothing.
`package-after` adopts the registries that an earlier release served, migrates them, and starts what ran.
"""

import os
import re
from pathlib import Path

from . import backup, init, job, marking, places, program, settings
from .files import write_text
from .hands import task
from .output import DONE, Stop, error

EARLIER_FILE = re.compile(r"(?m)^\s*AVROREG_DB=(.*)$")
BOOTED = Path("/run/systemd/system")


def add(parser) -> None:
    parser.add_argument("version", nargs="?", default="another release", help="package-before: the version to be installed")


def run(context) -> int:
    """Within `upgrade` and `rollback`, the job does all this itself."""
    if is_in_job():
        return DONE
    return before(context) if context.options.command == "package-before" else after(context)


def is_in_job() -> bool:
    jobs = [job.open_job(places.place_of(name)) for name in places.names()]
    return any(opened is not None and opened.command in ("upgrade", "rollback") for opened in jobs)


def before(context) -> int:
    """A registry that a job works on has been backed up by it."""
    for name in places.names():
        place = places.place_of(name)
        try:
            if job.open_job(place) is None:
                with job.Lock(place, is_shared=True):
                    made = backup.make(place, pinned=f"before {context.options.version}")
                context.output.ok(f"{name}: backup {made['record']['file']} is made and pinned")
        finally:
            place.close()
    return DONE


def after(context) -> int:
    """Also after a failure of one registry, it goes on with the others: dpkg must not stop halfway."""
    for name in candidates():
        place = places.place_of(name)
        try:
            renew(place, context.output)
        except (Stop, OSError) as failure:
            error(f"{name}: {failure}")
        finally:
            place.close()
    return DONE


def candidates() -> list[str]:
    """The registries of this machine, and those that a release without registry.json served."""
    found = set(places.names())
    for file in Path("/etc/default").glob("avroreg*"):
        name = file.name.removeprefix("avroreg").removeprefix("-") or places.DEFAULT
        if file.name == "avroreg" or settings.is_name(name):
            found.add(name)
    if os.path.lexists("/var/lib/avroreg/registry.db"):
        found.add(places.DEFAULT)
    return sorted(found)


def renew(place, output) -> None:
    """Stops the registry, adopts it if that is new, migrates it, and starts it if it ran or if a boot would start it."""
    if not os.path.isdir(place.folder) or job.open_job(place) is not None:
        return
    has_systemd = BOOTED.is_dir()
    runs = has_systemd and (place.process() is not None or place.is_started_at_boot())
    if runs:
        place.stop()
    if place.registry is None and not adopt(place):
        return
    if runs:
        migrated = place.hands(program.migrate, program=place.program, database=place.database)
        if "nothing to do" not in migrated:
            output.ok(f"{place.name}: {migrated}")
        place.start()
        output.ok(f"{place.name}: avroreg is up: {place.url}")


def adopt(place) -> bool:
    """Notes a registry that an earlier release served. Its file may have another name, AVROREG_DB. False if there is none."""
    text = place.settings_file.read_text(encoding="utf-8") if place.settings_file.exists() else ""
    named = EARLIER_FILE.findall(text)
    source = settings.values_of(f"F={named[-1]}")["F"] if named else str(place.database)
    if not place.hands(take_name, source=source, database=place.database):
        return False
    if named:
        write_text(place.settings_file, EARLIER_FILE.sub("# AVROREG_DB was here: the file is now always registry.db", text))
    init.make_state(place)
    init.make_folders(place)
    place.hands(marking.put, database=place.database, place=init.note_registry(place))
    return True


@task
def take_name(source: str, database: str) -> bool:
    """Renames F and its log to registry.db. False if there is no such file."""
    if os.path.dirname(source) != os.path.dirname(database) or not os.path.lexists(source):
        return False
    if source != database:
        for suffix in ("-wal", ""):  # F last: a killed run goes on
            if os.path.lexists(database + suffix) and os.path.lexists(source + suffix):
                raise FileExistsError(17, "both files are there", database + suffix)
            if os.path.lexists(source + suffix):
                os.rename(source + suffix, database + suffix)
    return True
