"""Which registries another release can't read, because a newer one migrated them to another layout."""

import contextlib
import os
import tempfile
from collections.abc import Iterator
from pathlib import Path

from . import drafting, places, program, replacement
from .archive import listed
from .hands import task
from .output import NO, Stop

NEWER = "newer than this program"  # what a release says of a layout that it doesn't know


@task
def seen_by(other: str, current: str, database: str, process: int | None, folder: str) -> dict:
    """What another release says of a copy of the registry, and how many schemas the registry has."""
    os.makedirs(folder, mode=0o700, exist_ok=True)
    with drafting.scratch([database], folder) as made:
        copies = [drafting.copied(database, made, name, process) for name in ("current", "other")]
        schemas = len(program.listing(current, copies[0], "schemas"))
        try:
            program.listing(other, copies[1], "subjects")
        except Stop as stop:
            return {"fault": stop.message, "schemas": schemas}
    return {"fault": "", "schemas": schemas}


@contextlib.contextmanager
def program_of(release, file: str, parent: Path) -> Iterator[str]:
    """The program of a release, in a folder of root that others can read."""
    with tempfile.TemporaryDirectory(dir=parent) as folder:
        os.chmod(folder, 0o755)
        yield release.program_of(file, folder)


def survey(release, facts: dict, state: Path) -> dict:
    """The registries that the release to be installed can't read, each with the backup that takes its place."""
    found = {}
    with program_of(release, facts["file"], state) as other:
        for name in facts["registries"]:
            place = places.place_of(name)
            seen = place.hands(seen_by, other=other, current=place.program, database=place.database, process=place.process(), folder=place.jobs)
            if NEWER in seen["fault"]:
                found[name] = facts_of(place, facts) | {"schemas": seen["schemas"]}
            place.close()
    return found


def facts_of(place, facts: dict) -> dict:
    """The facts of one registry's replacement: its newest backup from before the release that is installed now."""
    records = place.hands(listed, folder=place.backups)["records"]
    before = [record for record in records if record["pinned"] == f"before {facts['from']}" and record["audit"] == "holds"]
    if not before:
        raise Stop(NO, f"{facts['to']} can't read the registry {place.name}, and there is no backup of it from before {facts['from']}", "avroreg-admin backups")
    record = before[-1]
    return {"source": str(place.backups / record["file"]), "name": record["file"], "since": replacement.iso(record["time"]), "greatest": None, "count": None,
            "backup_schemas": record["schemas"], "was_running": place.process() is not None, "was_paused": place.paused_file.exists(), "is_new": False}


def plan_rows(facts: dict) -> list[tuple[str, str]]:
    """What becomes of the registries that the release can't read."""
    return [(name, f"{facts['to']} can't read its layout, so {one['name']} of {one['since'][:16]} is restored: {one['backup_schemas']:,} of {one['schemas']:,} schemas. "
             "The others keep their ids. Writes since then are lost, and named at the end") for name, one in facts["layouts"].items()]
