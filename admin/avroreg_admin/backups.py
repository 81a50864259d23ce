"""List the backups. `backups prune` removes old ones: never the newest, the fullest or a pinned one.

`backups --verify` audits all backups again, and compares their bytes with their records.
"""

import os
import shutil
import time
from pathlib import Path

from . import after_backup, archive, checked_copy, restore
from .hands import task
from .output import DONE, NO, USAGE, Stop

COLUMNS = ("TIME (UTC)", "SUBJECTS", "VERSIONS", "SCHEMAS", "SIZE", "AUDIT", "NOTE")


def add(parser) -> None:
    parser.add_argument("action", nargs="?", choices=["list", "prune"], default="list", help="list (default) or prune")
    parser.add_argument("--keep", metavar="N", type=restore.whole_number, help="prune: keep so many")
    parser.add_argument("--jobs", action="store_true", help="prune: also remove the old files that restores kept, but for the last one")
    parser.add_argument("--verify", action="store_true", help="audit all backups again")


def size_of(count: int) -> str:
    """Bytes as people read them."""
    return f"{count / 1e9:.1f} GB" if count >= 1e9 else f"{count / 1e6:.1f} MB" if count >= 1e5 else f"{count / 1e3:.0f} KB"


def notes_of(record: dict, found: dict) -> str:
    notes = [name for name in ("newest", "fullest") if record["file"] == found[name]]
    notes += [f"{name}: {record[name]}" for name in ("pinned", "accepted", "job") if record[name]]
    return ", ".join(notes + ["from the future"] * (record["file"] in found["future"]))


def table(found: dict) -> list[str]:
    """The newest first, by their records."""
    rows = [COLUMNS]
    for record in reversed(found["records"]):
        at = time.strftime("%Y-%m-%d %H:%M:%S", time.gmtime(record["time"]))
        counts = [f"{record[name]:,}" for name in ("subjects", "versions", "schemas")]
        rows.append((at, *counts, size_of(record["bytes"]), record["audit"], notes_of(record, found)))
    widths = [max(len(row[at]) for row in rows) for at in range(len(COLUMNS))]
    return ["  ".join(cell.ljust(width) if at in (0, 5, 6) else cell.rjust(width) for at, (cell, width) in enumerate(zip(row, widths))).rstrip() for row in rows]


def show(context) -> int:
    found = listed(context.place)
    context.output.data(found)
    if not context.output.as_json:
        print("\n".join(table(found)))
    if context.place.settings.after_backup:
        context.output.text(f"last copy to another machine: {after_backup.shown(context.place)}")
    for name in found["unrecorded"]:
        context.output.warn(f"{name} has no record. The next backup makes one, or: avroreg-admin backups --verify")
    if found["future"]:
        context.output.warn("a backup is from the future: the clock was wrong then, or is wrong now. The order is right all the same")
    return DONE


def listed(place) -> dict:
    try:
        return place.hands(archive.listed, folder=place.backups)
    except FileNotFoundError:
        raise Stop(NO, f"there is no folder {place.backups}", "avroreg-admin init") from None


def verify(context) -> int:
    context.agree([("verify", f"each backup in {context.place.backups}")], asks=False)
    results = context.place.hands(checked_copy.verify, folder=context.place.backups, avroreg=context.place.program)
    context.output.data(results)
    for name, fault in results:
        context.output.line("PROBLEM" if fault else "ok", f"{name}: {fault or 'the audit holds, and its bytes are as they were'}")
    return NO if any(fault for _, fault in results) else DONE


@task
def old_jobs(folder: str) -> list:
    """The folders of finished jobs with old files, the oldest first, and their bytes. The last one stays."""
    if not os.path.isdir(folder):
        return []
    jobs = sorted(entry for entry in Path(folder).iterdir() if (entry / "old").is_dir())
    return [[str(job), sum(file.lstat().st_size for file in job.rglob("*") if file.is_file())] for job in jobs[:-1]]


@task
def remove_jobs(folder: str, jobs: list) -> None:
    """Removes folders of jobs. Each one is in this folder."""
    for job in jobs:
        if Path(job).parent == Path(folder):
            shutil.rmtree(job)


def prune(context) -> int:
    """Removes what the options name, after the plan."""
    options, place = context.options, context.place
    if options.keep is None and not options.jobs or options.keep == 0:
        raise Stop(USAGE, "prune needs --keep N, with N at least 1, or --jobs")
    going = place.hands(archive.prune, folder=place.backups, keep=options.keep, is_dry=True) if options.keep else []
    jobs = place.hands(old_jobs, folder=place.jobs) if options.jobs else []
    freed = sum(record["bytes"] for record in going) + sum(size for _, size in jobs)
    context.agree([("remove", f"{len(going)} backups and the old files of {len(jobs)} jobs: {size_of(freed)}"),
                   *[("", restore.shown(record)) for record in going], *[("", job) for job, _ in jobs]], asks=bool(going or jobs))
    removed = place.hands(archive.prune, folder=place.backups, keep=options.keep) if going else []
    if jobs:
        place.hands(remove_jobs, folder=place.jobs, jobs=[job for job, _ in jobs])
    context.output.ok(f"removed {len(removed)} backups and the old files of {len(jobs)} jobs, {size_of(freed)}")
    return DONE


def run(context) -> int:
    if context.options.action == "prune":
        return prune(context)
    return verify(context) if context.options.verify else show(context)
