"""Runs before each start, and refuses one that would lose or replace data.

It compares what it finds with the mark next to F and with registry.json, which root keeps. It opens
nothing for writing. If it fails itself, nothing starts either. `avroreg-admin accept` is the way past
every rule but the first.
"""

import json
import os
import sys
from pathlib import Path

from . import mark, wal

DONE, REFUSED, WRONG_ARGUMENTS, BROKEN = 0, 1, 64, 70
FLOOR_BYTES = 64 << 20


class Refusal(Exception):
    """Why nothing starts: the id of a finding of `doctor`, a text, and the commands that lead on."""

    def __init__(self, id: str, text: str, *commands: str):
        super().__init__(text)
        self.id, self.text, self.commands = id, text, commands


class Found:
    """What lies in the folder, and what root noted about it."""

    def __init__(self, name: str, root: str):
        self.name = name
        self.state = os.path.join(root, "var/lib/avroreg-admin", name)
        self.registry = read_json(os.path.join(self.state, "registry.json"))
        usual = os.path.join(root, "var/lib/avroreg" + ("" if name == "default" else "-" + name))
        self.folder = self.registry["folder"] if self.registry else usual
        self.database = os.path.join(self.folder, "registry.db")
        self.log = self.database + "-wal"
        self.file = mark.stat_of(self.database)
        self.warnings: list[str] = []

    @property
    def rescue(self) -> tuple[str, ...]:
        """The command that puts back what `before-stop` saved, if it did."""
        return (self.command("rescue"),) if (self.mark or {}).get("rescued") else ()

    def command(self, text: str) -> str:
        """A command of avroreg-admin for this registry."""
        return f"avroreg-admin {text}" + ("" if self.name == "default" else f" --registry {self.name}")

    @property
    def mark(self) -> dict | None:
        try:
            return mark.read(os.path.join(self.folder, "registry.mark"))
        except ValueError:
            return None  # a damaged mark is as a missing one


def read_json(path: str) -> dict | None:
    try:
        with open(path, encoding="utf-8") as file:
            return json.load(file)
    except FileNotFoundError:
        return None


def check_job(found: Found) -> None:
    """1: no job is unfinished, or the job itself put this file in place."""
    job = read_json(os.path.join(found.state, "job.json"))
    if job is not None and (found.mark or {}).get("job") != job["id"]:
        raise Refusal("unfinished", f"{job['command']} by {job['person']} was stopped on the way", found.command("continue"), found.command("undo"))


def check_registry(found: Found) -> None:
    """2: `init` made this registry here."""
    if found.registry is None:
        if found.file is not None:
            raise Refusal("no-registry", f"this machine has no note of the registry in {found.folder}", found.command("accept --reason TEXT"))
        raise Refusal("no-registry", f"there is no registry in {found.folder}", found.command("init"), found.command("restore"))


def check_mark(found: Found) -> None:
    """3: the folder is the one that was served here, and not an empty mount point or a copy."""
    noted = found.mark
    if noted is None or noted["place"] != found.registry["place"]:
        what = "has no mark of this registry" if noted is None else "has the mark of another registry"
        raise Refusal("disk-not-mounted", f"{found.folder} {what}. Is its disk mounted?", "mount it, then systemctl start " + found.registry["unit"],
                      "if the disk is lost: " + found.command("restore"), "if the folder is right: " + found.command("accept --reason TEXT"))


def check_file(found: Found) -> None:
    """4: F is there."""
    if found.file is None or found.file.st_size == 0:
        what = "is missing" if found.file is None else "is empty"
        raise Refusal("file-missing", f"{found.database} {what}", *found.rescue, found.command("restore"))


def check_inode(found: Found) -> None:
    """5: F is the file that was served last."""
    if found.file.st_ino != found.mark["inode"]:
        raise Refusal("file-replaced", f"{found.database} is another file than the one that was served last", *found.rescue,
                      found.command("accept --reason TEXT"), "if it wasn't meant: " + found.command("restore"))


def check_access(found: Found) -> None:
    """6: avroreg can open F, and no other program changes it."""
    journal = mark.stat_of(found.database + "-journal")
    faults = (
        (found.file.st_mode & 0o170000 != 0o100000, "isn't a regular file"),
        (found.file.st_nlink > 1, "has a second hard link"),
        (found.file.st_uid != os.geteuid(), f"belongs to the user {found.file.st_uid}, and avroreg runs as {os.geteuid()}"),
        (journal is not None and journal.st_size > 0, "has a journal of another SQLite program, registry.db-journal"),
    )
    for is_fault, text in faults:
        if is_fault:
            raise Refusal("cannot-open", f"{found.database} {text}", found.command("repair"))


def check_log(found: Found) -> None:
    """7: the log is there if the newest writes may be in it alone. If F changed after the stop, another avroreg copied the log into it."""
    noted = found.mark
    if not noted["log"] or mark.stat_of(found.log) is not None:
        return
    if noted["state"] == mark.STOPPED and (found.file.st_size, found.file.st_mtime_ns) != (noted["size"], noted["time"]):
        found.warnings.append(f"another avroreg opened {found.database} and closed it")
        return
    raise Refusal("log-missing", f"{found.log} is missing, and it has the newest writes", *found.rescue, "put it back, then systemctl start " + found.registry["unit"],
                  "if it is lost: " + found.command("restore"), "to go on without these writes: " + found.command("accept --reason TEXT"))


def check_chain(found: Found) -> None:
    """8: the log is whole. A torn end, as after a power cut, is no fault: it was never acknowledged."""
    if fault := wal.fault_of(Path(found.log)):
        repair = () if wal.valid_header(Path(found.log)) else (found.command("repair"),)
        raise Refusal("log-damaged", fault, *repair, found.command("restore"))


def check_space(found: Found) -> None:
    """9: little space is no reason to refuse: reads work."""
    disk = os.statvfs(found.folder)
    if disk.f_bavail * disk.f_frsize < FLOOR_BYTES:
        found.warnings.append(f"disk-full: {found.folder} has {disk.f_bavail * disk.f_frsize >> 20} MB free, so writes fail soon")


RULES = (check_job, check_registry, check_mark, check_file, check_inode, check_access, check_log, check_chain, check_space)


def examine(name: str, root: str = "/") -> tuple[Refusal | None, list[str]]:
    """The first rule that refuses a start, if one does, and the warnings."""
    found = Found(name, root)
    try:
        for rule in RULES:
            rule(found)
    except Refusal as refusal:
        return refusal, found.warnings
    return None, found.warnings


def say(text: str) -> None:
    print(f"guard: {text}", file=sys.stderr, flush=True)


def main() -> int:
    """`avroreg-admin guard [--registry NAME]`"""
    words = sys.argv[2:]
    if words and (len(words) != 2 or words[0] != "--registry"):
        say("usage: avroreg-admin guard [--registry NAME]")
        return WRONG_ARGUMENTS
    try:
        refusal, warnings = examine(words[1] if words else "default", os.environ.get("AVROREG_ADMIN_LOCAL", "/"))
    except Exception as error:  # whatever it is: nothing starts unexamined
        say(f"failed, so nothing starts: {type(error).__name__}: {error}")
        return BROKEN
    for warning in warnings:
        say(f"warning: {warning}")
    if refusal is None:
        return DONE
    say(f"{refusal.id}: {refusal.text}")
    for command in refusal.commands:
        say(f"next: {command}")
    return REFUSED
