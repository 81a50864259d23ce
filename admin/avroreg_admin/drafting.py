"""Makes the draft of a restore in a job's folder: a copy of the backup with the lost ids used up, audited.

The tasks run as the registry's user. What they open with avroreg are copies, since avroreg changes
the files that it opens. Small copies are made in memory.
"""

import contextlib
import os
import shutil
import tempfile
from collections.abc import Iterator
from datetime import datetime
from pathlib import Path

from . import archive, checked_copy, difference, hot_copy, mark, marking, program, reserved_ids, swap, wal
from .files import read_json, write_json
from .hands import task
from .nginx_log import Since
from .output import ERROR, NO, Stop
from .reserved_ids import OldFile, Plan, Sources

PREFIX = "avroreg-draft-"
MEMORY, DISK = "/dev/shm", "/var/tmp"
MEMORY_PART = 4  # copies may take this part of the free memory
COPIES = 4
BYTES_OF_ID = 2048
UNMARKED = ""  # the place of a registry that has no mark: no unit serves it


def remove_left(folder: str) -> None:
    """Removes the copies of this user's killed runs, which would stay in memory."""
    for left in Path(folder).glob(f"{PREFIX}*-*"):
        maker = left.name.removeprefix(PREFIX).partition("-")[0]
        with contextlib.suppress(FileNotFoundError):
            if left.lstat().st_uid == os.geteuid() and left.is_dir() and not os.path.exists(f"/proc/{maker}"):
                shutil.rmtree(left, ignore_errors=True)


@contextlib.contextmanager
def scratch(files: list[str], folder: str) -> Iterator[str]:
    """A folder for copies of these files: in memory if they fit, else in this folder if avroreg can reach it there."""
    needed = COPIES * sum(os.path.getsize(file + suffix) for file in files for suffix in swap.SUFFIXES if os.path.exists(file + suffix))
    is_small = os.path.isdir(MEMORY) and os.access(MEMORY, os.W_OK) and needed + (64 << 20) < shutil.disk_usage(MEMORY).free // MEMORY_PART
    on_disk = folder if os.access(os.path.realpath(folder), os.W_OK) else DISK
    chosen = MEMORY if is_small else on_disk
    remove_left(chosen)
    with tempfile.TemporaryDirectory(prefix=f"{PREFIX}{os.getpid()}-", dir=chosen) as made:
        yield made


def copied(source: str, folder: str, name: str, process: int | None = None) -> str:
    """Copies a registry into a folder of its own."""
    target = os.path.join(folder, name, "registry.db")
    os.mkdir(os.path.dirname(target), 0o700)
    if process is None:
        checked_copy.plain_copy(source, target)
    else:
        hot_copy.copy(source, target, process=process)
    return target


def is_whole(database: str, place: str | None) -> bool:
    """Whether the file and its log are the ones that were served here last, and have every write. The guard has the same rules."""
    log = mark.stat_of(wal.log_of(database))
    if place == UNMARKED:
        return log is not None and not wal.fault_of(wal.log_of(database))
    try:
        found, noted = mark.stat_of(database), mark.read(marking.path_of(database))
    except (OSError, ValueError):
        return False
    if found is None or noted is None or noted["place"] != place or noted["inode"] != found.st_ino:
        return False
    is_closed = noted["state"] == mark.STOPPED and (found.st_size, found.st_mtime_ns) != (noted["size"], noted["time"])
    return (log is not None or not noted["log"] or is_closed) and not wal.fault_of(wal.log_of(database))


def old_of(avroreg: str, database: str, place: str | None, folder: str, process: int | None) -> tuple[OldFile | None, str]:
    """The schemas of the file that is replaced, and a copy of it. None if avroreg can't read it."""
    if not os.path.isfile(database) or os.path.islink(database):
        return None, ""
    try:
        whole = process is not None or is_whole(database, place)
        copy = copied(database, folder, "old", process)
        return OldFile(reserved_ids.schemas_of(avroreg, copy), whole), copy
    except (Stop, OSError):
        return None, ""


def checked_backup(avroreg: str, source: str, folder: str, process: int | None = None) -> str:
    """An audited copy of the backup. If the backup is the served registry itself, `process` serves it."""
    if not os.path.isfile(source):
        raise Stop(NO, f"there is no backup {source}", "avroreg-admin backups")
    copy = copied(source, folder, "backup", process)
    if fault := checked_copy.audited(avroreg, copy):
        raise Stop(NO, f"{source} can't be used: {fault}. Choose another backup", "avroreg-admin backups --verify")
    return copy


def log_of(known: dict) -> Since | None:
    """What root read in nginx's log."""
    if known.get("log") is None:
        return None
    times = {name: datetime.fromisoformat(known["log"][name]) if known["log"][name] else None for name in ("first", "set_back")}
    return Since(known["log"]["registrations"], known["log"]["unreadable"], **times)


def sources_of(known: dict, backup: reserved_ids.Schemas, old: OldFile | None) -> Sources:
    """What is known of lost ids. `known` has what root found out, as values of JSON."""
    time = datetime.fromisoformat(known["since"]) if known.get("since") else None
    seen_time = datetime.fromisoformat(known["seen_time"]) if known.get("seen_time") else None
    return Sources(backup, old, time, log_of(known), known.get("seen"), seen_time, known.get("greatest"), known.get("count"))


def plan_of(sources: Sources) -> Plan:
    try:
        return reserved_ids.plan(sources)
    except reserved_ids.Unknown as unknown:
        raise Stop(NO, f"nobody knows how many ids were assigned after the backup: {unknown}. An id that isn't used up gets another schema. "
                   "Prometheus may have avroreg_greatest_id: --greatest-id N. Or say how many schemas were registered since then: --lost-ids N, or 0 "
                   "if the file comes from another place and nothing was registered here") from None


@task
def survey(avroreg: str, source: str, database: str, folder: str, place: str | None, process: int | None, known: dict) -> dict:
    """What a restore would do, for the plan that a person sees. Leaves nothing."""
    swap.refuse_links(database)
    os.makedirs(folder, mode=0o700, exist_ok=True)
    with scratch([source, database], folder) as made:
        backup = checked_backup(avroreg, source, made, process if source == database else None)
        schemas = reserved_ids.schemas_of(avroreg, backup)
        old, copy = old_of(avroreg, database, place, made, process)
        planned = plan_of(sources_of(known, schemas, old))
        lost = difference.compare(difference.contents_of(avroreg, copy), difference.contents_of(avroreg, backup)) if old else []
    needed = COPIES * (os.path.getsize(source) + planned.count * BYTES_OF_ID)
    if shutil.disk_usage(folder).free < needed:
        raise Stop(NO, f"{folder} has too little space: the draft needs {(needed >> 20) + 1} MB", "avroreg-admin backups prune --keep 3")
    return {"schemas": len(schemas), "first": planned.first, "last": planned.last, "reasons": list(planned.reasons), "conflict": planned.ids_conflict,
            "has_old": old is not None, "old_schemas": len(old.schemas) if old else 0, "differences": lost}


def with_reserved(avroreg: str, backup: str, planned: Plan, folder: str) -> tuple[str, set[int]]:
    """A copy of the backup in which the lost ids are used up, and the ids whose schema this program refuses."""
    refused: set[int] = set()
    for attempt in ("draft", "draft-again"):
        draft = copied(backup, folder, attempt)
        newly = reserved_ids.reserve(avroreg, draft, planned, refused)
        if not newly:
            return draft, refused
        refused |= newly
    raise Stop(ERROR, f"avroreg refuses the schemas of the ids {sorted(refused)[:5]} in one run and accepts them in another")


def check_draft(avroreg: str, draft: str, backup: reserved_ids.Schemas, planned: Plan, refused: set[int]) -> None:
    """The draft has the backup's schemas, and every lost id with its old schema if it is known."""
    if fault := checked_copy.audited(avroreg, draft):
        raise Stop(ERROR, f"the draft can't be used: {fault}")
    schemas = reserved_ids.schemas_of(avroreg, draft)
    right = dict(schemas)
    wrong = [number for number, text in planned.schemas.items() if number not in refused and right.get(number) != text]
    if schemas[:len(backup)] != backup or reserved_ids.greatest_of(schemas) != planned.last or wrong:
        raise Stop(ERROR, f"the draft isn't as planned: it ends with id {reserved_ids.greatest_of(schemas)}, not {planned.last}; wrong ids: {wrong[:5]}")


def noted_file(folder: str) -> str:
    return os.path.join(folder, "listed.json")


@task
def note_old(avroreg: str, database: str, place: str | None, folder: str) -> None:
    """Notes what the stopped registry has, by the program that can read it, for a draft that another release makes."""
    os.makedirs(folder, mode=0o700, exist_ok=True)
    with scratch([database], folder) as made:
        old, copy = old_of(avroreg, database, place, made, None)
        if old is None:
            raise Stop(ERROR, f"{database} can't be read", "avroreg-admin doctor")
        contents = difference.contents_of(avroreg, copy)
    write_json(noted_file(folder), {"schemas": old.schemas, "is_whole": old.is_whole, "contents": [[*key, value] for key, value in contents.items()]}, 0o600)


@task
def is_noted(folder: str) -> bool:
    return os.path.exists(noted_file(folder))


@task
def forget_old(folder: str) -> None:
    with contextlib.suppress(FileNotFoundError):
        os.unlink(noted_file(folder))
    swap.remove_draft(folder)


def replaced(avroreg: str, database: str, place: str | None, folder: str, made: str) -> tuple[OldFile | None, dict]:
    """The file that is replaced, and its contents: as they were noted, or by this program."""
    if (noted := read_json(noted_file(folder))) is None:
        old, copy = old_of(avroreg, database, place, made, None)
        return old, difference.contents_of(avroreg, copy) if old else {}
    contents = {(what, name, version): tuple(value) if what == "version" else value for what, name, version, value in noted["contents"]}
    return OldFile([(number, text) for number, text in noted["schemas"]], noted["is_whole"]), contents


@task
def make(avroreg: str, source: str, database: str, folder: str, place: str | None, known: dict) -> dict:
    """Makes the draft anew in jobs/ID/new, and notes what it has. The service is stopped. Returns the note."""
    new = os.path.join(folder, "new")
    shutil.rmtree(new, ignore_errors=True)
    for path in (folder, new):
        os.makedirs(path, mode=0o700, exist_ok=True)
    with scratch([source, database], new) as made:
        backup = checked_backup(avroreg, source, made)
        schemas = reserved_ids.schemas_of(avroreg, backup)
        old, contents = replaced(avroreg, database, place, folder, made)
        planned = plan_of(sources_of(known, schemas, old))
        draft, refused = with_reserved(avroreg, backup, planned, made)
        check_draft(avroreg, draft, schemas, planned, refused)
        lines = difference.compare(contents, difference.contents_of(avroreg, backup)) if old else None
        subjects = sum(int(row[2]) > 0 for row in program.listing(avroreg, draft, "subjects"))
        target = os.path.join(new, os.path.basename(database))
        hot_copy.copy_file(draft, target)
    ready = {"first": planned.first, "last": planned.last, "conflict": planned.ids_conflict, "refused": sorted(refused), "subjects": subjects,
             "schemas": planned.last, "sha256": archive.digest_of(target), "differences": lines, "reasons": list(planned.reasons)}
    swap.finish_draft(folder, ready)
    return ready
