"""Repair what is mechanical, if avroreg doesn't start: the file's owner, mode or second hard link, or the log's header.

A header is taken only from the one that `watch` saved, and only if the log's frames continue it. The
damaged log is kept. Then avroreg starts.
"""

import os
import stat
import struct
import time
from pathlib import Path

from . import checked_copy, hot_copy, mark, marking, seen, wal
from .files import sync_folder, write_json
from .hands import task
from .output import DONE, ERROR, NO, Stop


def add(_parser) -> None:
    pass


# The log's header


def with_header(data: bytes, header: bytes) -> bytes:
    """The log with this header. Refuses a header that the first frame doesn't continue: it is of another log."""
    size = wal.page_bytes_of(header)
    frame = data[wal.HEADER_BYTES:wal.FIRST_FRAME_BYTES + size]
    if not wal.is_valid(header) or not size or len(frame) < wal.FRAME_HEADER_BYTES + size:
        raise Stop(NO, "the saved header isn't one of this log")
    state = wal.add_checksum(struct.unpack(">2I", header[24:]), frame[:8] + frame[wal.FRAME_HEADER_BYTES:], wal.is_big_endian(header))
    if frame[8:16] != header[16:24] or struct.pack(">2I", *state) != frame[16:24]:
        raise Stop(NO, "the saved header is of an earlier log")
    return header + data[wal.HEADER_BYTES:]


def mend(log: str, saved: str | None) -> None:
    """Replaces a log by the same with the saved header."""
    if saved is None:
        raise Stop(NO, "watch has saved no header of the log")
    mended = with_header(Path(log).read_bytes(), bytes.fromhex(saved))
    draft = log + ".mended"
    Path(draft).unlink(missing_ok=True)
    with open(os.open(draft, os.O_WRONLY | os.O_CREAT | os.O_EXCL | os.O_NOFOLLOW, 0o600), "wb") as file:
        file.write(mended)
        file.flush()
        os.fsync(file.fileno())
    if fault := wal.fault_of(draft):
        os.unlink(draft)
        raise Stop(NO, fault)
    os.replace(draft, log)
    sync_folder(os.path.dirname(log))


@task
def mend_copy(log: str, saved: str | None) -> None:
    """Mends the log of a copy if its header is invalid."""
    if mark.has_frames(log) and wal.valid_header(log) is None:
        mend(log, saved)


@task
def mend_log(avroreg: str, database: str, saved: str | None, folder: str) -> str:
    """Mends the log of a stopped registry, after an audit of a copy. The damaged log stays in the folder."""
    log = wal.log_of(database)
    kept = os.path.join(folder, time.strftime("damaged-%Y%m%dT%H%M%SZ", time.gmtime()))
    os.makedirs(kept, mode=0o700)
    hot_copy.copy_file(log, os.path.join(kept, "registry.db-wal"))
    with checked_copy.unfinished(kept) as made:
        copied = str(made / "registry.db")
        checked_copy.plain_copy(database, copied)
        mend(wal.log_of(copied), saved)
        if fault := checked_copy.audited(avroreg, copied):
            raise Stop(NO, f"with the saved header, {fault}")
    mend(log, saved)
    return kept


def repair_log(context) -> str:
    place = context.place
    if place.hands(seen.look, database=place.database)["header"] is not None:
        raise Stop(NO, "the log's header is valid, and a part after it is damaged", "avroreg-admin restore")
    saved = seen.read(place.seen_file).get("header")
    context.agree([("repair", f"the header of {place.log}, from the one that watch saved")], asks=False)
    try:
        kept = place.hands(mend_log, avroreg=place.program, database=place.database, saved=saved, folder=place.jobs)
    except Stop as stop:
        raise Stop(NO, stop.message, "avroreg-admin restore") from None
    return f"the log has its header again; the damaged one is kept in {kept}"


# The file


@task
def replace_file(database: str) -> None:
    """Makes F a file of its own, with one name and the mode 0600. The mark follows."""
    draft = database + ".new"
    Path(draft).unlink(missing_ok=True)
    hot_copy.copy_file(database, draft)
    before = mark.read(marking.path_of(database))
    os.replace(draft, database)
    found = os.stat(database, follow_symlinks=False)
    write_json(marking.path_of(database), before | {"inode": found.st_ino, "size": found.st_size, "time": found.st_mtime_ns}, 0o600)


def give_back(place, name: str) -> bool:
    """Root gives a file of its own in the registry's folder to the registry's user, by descriptors. Returns whether it was root's."""
    uid, gid = place.owner
    folder = os.open(place.folder, os.O_RDONLY | os.O_DIRECTORY | os.O_NOFOLLOW | os.O_CLOEXEC)
    try:
        descriptor = os.open(name, os.O_RDONLY | os.O_NOFOLLOW | os.O_NONBLOCK | os.O_CLOEXEC, dir_fd=folder)
    except FileNotFoundError:
        return False
    finally:
        os.close(folder)
    try:
        found = os.fstat(descriptor)
        if found.st_uid == uid:
            return False
        if not stat.S_ISREG(found.st_mode) or found.st_nlink != 1:
            raise Stop(NO, f"{place.folder}/{name} isn't a file with one name, so root doesn't give it away", "avroreg-admin restore")
        os.fchown(descriptor, uid, gid)
        os.fchmod(descriptor, 0o600)
    finally:
        os.close(descriptor)
    return True


@task
def mend_modes(database: str) -> list:
    """Makes the file and its log readable and writable for their owner, and for nobody else. Returns the names that were changed."""
    changed = []
    for path in (database, wal.log_of(database)):
        found = mark.stat_of(path)
        if found and stat.S_ISREG(found.st_mode) and found.st_mode & 0o777 != 0o600:
            os.chmod(path, 0o600)
            changed.append(os.path.basename(path))
    return changed


def repair_modes(context) -> str:
    """The guard refuses nothing, but avroreg may be unable to open its file."""
    place = context.place
    context.agree([("repair", f"the modes of {place.database} and its log")], asks=False)
    changed = place.hands(mend_modes, database=place.database)
    if not changed:
        raise Stop(NO, "there is nothing to repair", f"systemctl start {place.unit}")
    return f"{' and '.join(changed)}: only the registry's user reads and writes it"


def repair_file(context) -> str:
    place = context.place
    found = mark.stat_of(str(place.database)) if os.geteuid() == 0 else os.stat(place.database)
    journal = place.hands(size_of, file=str(place.database) + "-journal")
    if journal:
        raise Stop(NO, "another SQLite program changed the file, and was interrupted: registry.db-journal", "avroreg-admin restore")
    if not stat.S_ISREG(found.st_mode):
        raise Stop(NO, f"{place.database} isn't a file", "avroreg-admin restore")
    is_foreign = found.st_uid != place.owner[0]
    context.agree([("repair", "the owner of the registry's files" if is_foreign else f"{place.database} gets one name")], asks=False)
    given = [name for name in (place.database.name, place.log.name) if give_back(place, name)]
    if given:
        return f"{' and '.join(given)} belongs to the registry's user again"
    place.hands(replace_file, database=place.database)
    return f"{place.database} is a file of its own"


@task
def size_of(file: str) -> int:
    found = mark.stat_of(file)
    return found.st_size if found else 0


def run(context) -> int:
    place = context.place
    if place.process() is not None:
        raise Stop(NO, "avroreg runs, so there is nothing to repair", "avroreg-admin doctor")
    refusal = place.hands(marking.examine, name=place.name, root=str(place.root))
    repairs = {None: repair_modes, "cannot-open": repair_file, "log-damaged": repair_log}
    name = refusal["id"] if refusal else None
    if name not in repairs:
        raise Stop(NO, f"{name}: {refusal['text']}", *refusal["next"])
    context.output.ok(repairs[name](context))
    again = place.hands(marking.examine, name=place.name, root=str(place.root))
    if again is not None:
        raise Stop(ERROR, f"{again['id']}: {again['text']}", *again["next"])
    place.start()
    context.output.ok(f"avroreg is up: {place.url}")
    return DONE
