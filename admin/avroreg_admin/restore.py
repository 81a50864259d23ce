"""Replace the registry by a backup, and use up the ids that were assigned after it.

By default it takes the newest backup. The old files are kept. If this is interrupted, `continue`
finishes it, and `undo` puts the old files back until the restored registry has responded.
"""

import argparse
import contextlib
from dataclasses import asdict
from datetime import datetime
from pathlib import Path

from . import archive, incoming, init, job, replacement
from .nginx_log import time_of
from .output import DONE, NO, Stop


def whole_number(text: str) -> int:
    if not text.isascii() or not text.isdigit():
        raise argparse.ArgumentTypeError(f"{text} is no whole number")
    return int(text)


def moment(text: str) -> datetime:
    try:
        return time_of(text)
    except ValueError as error:
        raise argparse.ArgumentTypeError(f"{text} is no time with an offset, such as 2026-11-28T02:30+00:00 or 20261128T023000Z") from error


def add(parser) -> None:
    which = parser.add_mutually_exclusive_group()
    which.add_argument("--newest", action="store_true", help="the newest backup, also if another one has more schemas")
    which.add_argument("--before", metavar="TIME", type=moment, help="the newest backup before this time, such as 2026-11-28T02:00Z")
    which.add_argument("--fullest", action="store_true", help="the backup with the most schemas")
    which.add_argument("--file", metavar="F", type=Path, help="this file, with its log F-wal if it has one")
    parser.add_argument("--from", dest="remote", metavar="HOST:DIR", help="take the backups of another machine, by rsync")
    parser.add_argument("--difference-only", action="store_true", help="only show what the registry has and the backup hasn't; restore nothing")
    add_ids(parser)


def add_ids(parser) -> None:
    parser.add_argument("--greatest-id", metavar="N", type=whole_number, help="the greatest id that was seen, such as avroreg_greatest_id in Prometheus")
    parser.add_argument("--lost-ids", metavar="N", type=whole_number, help="at least so many schemas were registered since the backup")


def shown(record: dict) -> str:
    return f"{record['file']} of {replacement.iso(record['time'])[:16]} with {record['schemas']:,} schemas"


def choose(found: dict, options) -> dict:
    """The record of the backup to restore. Refuses the newest one if another has more schemas, unless it was asked for."""
    good = [record for record in found["records"] if record["audit"] == archive.HOLDS]
    if not good:
        raise Stop(NO, "there is no good backup", "avroreg-admin restore --file F", "avroreg-admin restore --from HOST:DIR")
    newest, fullest = good[-1], next(record for record in good if record["file"] == found["fullest"])
    if options.fullest:
        return fullest
    if options.before:
        earlier = [record for record in good if record["time"] < options.before.timestamp()]
        if not earlier:
            raise Stop(NO, f"no backup is from before {options.before.isoformat()}", "avroreg-admin backups")
        return earlier[-1]
    if fullest["schemas"] > newest["schemas"] and not options.newest:
        raise Stop(NO, f"the newest backup is {shown(newest)}. Another one is {shown(fullest)}", "avroreg-admin restore --fullest",
                   "avroreg-admin restore --newest")
    return newest


def listed(folder: Path) -> dict:
    """What root fetched, in the form of `archive.listed`."""
    found = archive.read(str(folder))
    return {"records": [asdict(record) for record in found.records], "fullest": found.fullest.file if found.fullest else None}


def source_of(context, folder: Path) -> tuple[str, str, str | None]:
    """The backup's path for the registry's user, its name for a person, and its time."""
    place, options = context.place, context.options
    if options.file:
        return incoming.bring(place, options.file, folder), str(options.file), incoming.time_of(options.file)
    if options.remote:
        fetched = incoming.fetch(place, options.remote)
        record = choose(listed(fetched), options)
        return incoming.bring(place, fetched / record["file"], folder), shown(record), replacement.iso(record["time"])
    found = place.hands(archive.listed, folder=place.backups)
    for name in found["unrecorded"]:
        context.output.warn(f"{name} has no record: avroreg-admin backups --verify")
    record = choose(found, options)
    return str(place.backups / record["file"]), shown(record), replacement.iso(record["time"])


@contextlib.contextmanager
def locked(context):
    """The lock, which `main` has taken unless this machine is new."""
    init.make_state(context.place)
    if context.lock is not None or context.options.dry_run:
        yield
        return
    with job.Lock(context.place):
        yield


def replace(context, command: str, source) -> int:
    """Plans, asks, and runs the job. `source` gives the backup's path, name and time."""
    place, folder = context.place, context.place.jobs / incoming.FOLDER
    with locked(context):
        job.refuse_open_job(place)
        init.make_folders(place)
        is_begun = False
        try:
            path, name, since = source(folder)
            facts = replacement.facts_of(place, path, name, since, context.options)
            found, plan = replacement.survey(place, facts)
            if getattr(context.options, "difference_only", False):
                return show_difference(context, found)
            context.agree(plan)
            opened = job.new_job(place, command, context.person, facts)
            is_begun = True
            job.advance(place, opened, steps(context, opened), context.output)
        finally:
            if not is_begun or not place.job_file.exists():
                incoming.forget(place)
    return DONE


def show_difference(context, found: dict) -> int:
    """What the old file has and the backup hasn't. Status 1 if there is something, or if nobody knows."""
    context.output.data(found)
    if not found["has_old"]:
        raise Stop(NO, "avroreg can't read the registry's file, so there is nothing to compare")
    for line in found["differences"]:
        context.output.text(line)
    context.output.line("warn" if found["differences"] else "ok", f"{len(found['differences'])} differences")
    return NO if found["differences"] else DONE


def run(context) -> int:
    return replace(context, "restore", lambda folder: source_of(context, folder))


def steps(context, opened) -> list[job.Step]:
    return replacement.Replacement(context, opened).steps()
