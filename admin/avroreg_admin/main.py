"""Runs a subcommand: its arguments, its rights, its lock, its errors and its record."""

import argparse
import contextlib
import os
import pwd
import sys
import syslog
import time
from dataclasses import dataclass

from . import arguments, job, places
from .output import DONE, ERROR, NO, NOT_ROOT, USAGE, Output, Stop, error, of_registry


@dataclass
class Context:
    """What a subcommand gets."""

    options: argparse.Namespace
    output: Output
    place: places.Place
    person: str
    lock: job.Lock | None = None

    def agree(self, plan: list[tuple[str, str]], asks: bool = True) -> None:
        """Prints the plan. Ends the command if this is a dry run, or if the answer is no. Each change comes after this."""
        dry = self.options.dry_run
        self.output.data({"plan": dict(plan)})
        if asks or dry:
            self.output.plan(plan)
        if dry:
            raise Stop(DONE, "")
        if not asks or self.options.yes:
            return
        if not sys.stdin.isatty():
            raise Stop(USAGE, "there is no terminal to ask: add --yes, or --dry-run to see the plan only")
        if input("Go on? [y/N] ").strip().lower() not in ("y", "yes"):
            raise Stop(NO, "nothing was changed")


def person() -> str:
    """Who runs this, for messages and history.jsonl."""
    name = os.environ.get("SUDO_USER")
    if not name:
        try:
            name = pwd.getpwuid(os.getuid()).pw_name
        except KeyError:
            name = str(os.getuid())
    return name


# A node's registry changes only through the cluster's log.
REFUSED_ON_NODES = ("accept", "copy-from", "lost-ids", "read-only", "restore")


def check_rights(command: arguments.Subcommand, place: places.Place) -> None:
    if command.needs_root and os.geteuid() != 0 and not isinstance(place, places.Local):
        raise Stop(NOT_ROOT, f"{command.name} needs root")
    if command.name in REFUSED_ON_NODES and place.settings.kind == "node":
        raise Stop(NO, f"{command.name} would change this node, and not the others", "avroreg-cluster --help")
    if command.needs_registry and place.registry is None:
        raise Stop(NO, f"this machine has no registry {place.name}", f"avroreg-admin init{'' if place.name == places.DEFAULT else ' --registry ' + place.name}")


@contextlib.contextmanager
def locked(command: arguments.Subcommand, place: places.Place, who: str, dry: bool):
    """Holds the registry's lock, as the command's row says. A dry run takes none."""
    if command.lock == arguments.FREE or dry or not place.state.is_dir():
        yield None
        return
    with job.Lock(place, command.lock == arguments.SHARED) as lock:
        lock.say(f"{who} runs {command.name} since {time.strftime('%H:%M', time.gmtime())} (pid {os.getpid()})")
        yield lock


def record(command: arguments.Subcommand, place: places.Place, who: str, status: int) -> None:
    """Notes a command that could change something, and its status, in the journal and in history.jsonl."""
    if command.is_internal or command.lock == arguments.FREE and not command.needs_root:
        return
    syslog.openlog("avroreg-admin")
    syslog.syslog(f"{who} ran {' '.join(safe_arguments())}: status {status}")
    with contextlib.suppress(OSError):
        job.note(place, {"time": time.time(), "person": who, "command": safe_arguments(), "status": status})


def safe_arguments() -> list[str]:
    """The arguments; passwords are never among them."""
    return sys.argv[1:]


def perform(command: arguments.Subcommand, options: argparse.Namespace, output: Output) -> int:
    place = places.chosen(options.registry)
    output.registry = "" if place.name == places.DEFAULT else place.name
    who = person()
    try:
        check_rights(command, place)
        with locked(command, place, who, options.dry_run) as lock:
            if not command.may_meet_job and command.lock != arguments.FREE:
                job.refuse_open_job(place)
            status = arguments.module_of(command).run(Context(options, output, place, who, lock))
    except Stop as stop:
        if not options.dry_run:
            record(command, place, who, stop.status)
        raise
    finally:
        place.close()
    if not options.dry_run:
        record(command, place, who, status)
    return status


def main() -> int:
    words = sys.argv[1:]
    if not words or words[0] in ("-h", "--help", "help"):
        print(arguments.overview("--all" in words))
        return DONE if words else USAGE
    output = Output()
    try:
        command = arguments.subcommand_of(words[0])
        options = arguments.parse(command, words[1:])
        output = Output(as_json=options.json)
        return perform(command, options, output)
    except Stop as stop:
        if stop.message:
            error(of_registry(stop.message, output.registry))
        for line in stop.next_commands:
            output.next(line)
        return stop.status
    except (OSError, ValueError) as failure:
        error(str(failure))
        return ERROR
    except KeyboardInterrupt:
        error("interrupted")
        return ERROR
