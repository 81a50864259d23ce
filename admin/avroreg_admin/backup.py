"""Make a checked backup of the served registry now, or set when backups are made and how many are kept."""

import os
import stat
from pathlib import Path

from . import after_backup, archive, checked_copy, schedule, settings
from .output import DONE, ERROR, NO, USAGE, Stop
from .places import Place

BLOCK_BYTES = 1 << 20


def add(parser) -> None:
    parser.add_argument("--to", metavar="FILE", type=Path, help="write the backup to this new file, and leave the archive as it is")
    parser.add_argument("--schedule", metavar="CAL", help="from now on, back up at these times: a calendar expression of systemd, such as '*-*-* 00/6:00'")
    parser.add_argument("--keep", metavar="N", type=int, help="from now on, keep so many backups")
    parser.add_argument("--accept-fewer", metavar="REASON", help="the registry has fewer schemas than before, on purpose: later backups are compared with this one")
    parser.add_argument("--pin", metavar="NAME", help="keep this backup, whatever its age")
    parser.add_argument("--unpin", metavar="NAME", help="let this backup go when its time comes")
    parser.add_argument("--reason", metavar="TEXT", default="", help="why a backup is pinned")


def make(place: Place, **notes: str) -> dict:
    """Makes a backup as the registry's user. Returns what `checked_copy.make` does."""
    chosen = place.settings
    return place.hands(checked_copy.make, database=place.database, folder=place.backups, avroreg=place.program, keep=chosen.keep,
                       process=place.process(), floor=chosen.floor, program=version_of(place), **notes)


def version_of(place: Place) -> str:
    """The version of the installed program, from its record."""
    record = place.root / "usr/share/avroreg/program"
    lines = record.read_text(encoding="utf-8").splitlines() if record.exists() else []
    return lines[0].strip("# ") if lines else ""


def report(output, made: dict) -> None:
    record = made["record"]
    output.data(made)
    output.ok(f"backup {record['file']}: {record['subjects']} subjects, {record['versions']} versions, {record['schemas']} schemas, audit {record['audit']}")
    if made["removed"]:
        output.ok(f"removed {len(made['removed'])} old backups")
    for problem in made["problems"]:
        output.warn(problem)


def check_target(target: Path) -> None:
    """Root writes only where nobody else can plant a link: each folder above is root's, and no one else may write there."""
    if os.path.lexists(target):
        raise Stop(NO, f"{target} exists already")
    for folder in target.absolute().parents:
        found = os.stat(folder, follow_symlinks=False)
        if not stat.S_ISDIR(found.st_mode) or found.st_uid not in (0, os.geteuid()) or found.st_mode & 0o022 and not found.st_mode & stat.S_ISVTX:
            raise Stop(NO, f"others than root can change {folder}: name a file in a folder of root")


def opened_as_roots(folder: Path, name: str, uid: int) -> int:
    """A descriptor of a file of the registry's user, by the descriptor of its folder. Follows no link."""
    at = os.open(folder, os.O_RDONLY | os.O_DIRECTORY | os.O_NOFOLLOW | os.O_CLOEXEC)
    try:
        descriptor = os.open(name, os.O_RDONLY | os.O_NOFOLLOW | os.O_NONBLOCK | os.O_CLOEXEC, dir_fd=at)
    finally:
        os.close(at)
    found = os.fstat(descriptor)
    if not stat.S_ISREG(found.st_mode) or found.st_uid != uid or found.st_nlink != 1:
        os.close(descriptor)
        raise Stop(ERROR, f"{folder}/{name} isn't a file of the registry's user")
    return descriptor


def write_to(place: Place, folder: Path, target: Path, floor: int = 0) -> dict:
    """Makes a checked copy in a folder of the registry's user, as that user, and copies it to a file of root."""
    check_target(target)
    name = f"{archive.UNFINISHED}{os.getpid()}.db"
    record = place.hands(checked_copy.save_to, database=place.database, target=folder / name, folder=folder, avroreg=place.program,
                         process=place.process(), floor=floor)
    try:
        out = os.open(target, os.O_WRONLY | os.O_CREAT | os.O_EXCL | os.O_NOFOLLOW | os.O_CLOEXEC, 0o600)
        with open(opened_as_roots(folder, name, place.owner[0]), "rb") as source, open(out, "wb") as file:
            while block := source.read(BLOCK_BYTES):
                file.write(block)
            file.flush()
            os.fsync(out)
    finally:
        place.hands(checked_copy.discard, file=folder / name)
    return record | {"file": str(target)}


def change_settings(context) -> bool:
    """Does what the options say besides a backup. Returns whether there was something."""
    options, place = context.options, context.place
    for name, reason in ((options.pin, options.reason or "pinned"), (options.unpin, "")):
        if name:
            context.agree([("pin" if reason else "unpin", name)], asks=False)
            place.hands(archive.pin, folder=place.backups, name=name, reason=reason)
            context.output.ok(f"{name} is {'pinned: ' + reason if reason else 'no longer pinned'}")
    if options.keep is not None:
        if options.keep < 1:
            raise Stop(USAGE, "--keep must be at least 1")
        context.agree([("keep", str(options.keep))], asks=False)
        settings.change(place.settings_file, {"KEEP": str(options.keep)})
        context.output.ok(f"{options.keep} backups are kept from now on")
    if options.schedule is not None:
        schedule.runs_of(options.schedule)
        context.agree([("schedule", options.schedule)], asks=False)
        context.output.ok(schedule.change(place, options.schedule))
    return bool(options.pin or options.unpin or options.keep is not None or options.schedule is not None)


def run(context) -> int:
    options, place = context.options, context.place
    if change_settings(context):
        return DONE
    if options.accept_fewer is not None and not options.accept_fewer.strip():
        raise Stop(USAGE, "--accept-fewer needs a reason")
    context.agree([("backup", f"of {place.database} to {options.to or place.backups}")], asks=False)
    if options.to:
        report(context.output, {"record": write_to(place, place.backups, options.to, place.settings.floor), "removed": [], "problems": []})
        return DONE
    report(context.output, make(place, accepted=options.accept_fewer or ""))
    if text := after_backup.hook(place):
        context.output.ok(text)
    return DONE
