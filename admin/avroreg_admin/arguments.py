"""The table of subcommands, and the parser that is made from it."""

import argparse
import importlib
import importlib.util
from dataclasses import dataclass

from .output import STATUSES, USAGE, Stop

EXCLUSIVE, SHARED, FREE = "exclusive", "shared", "free"  # how a command takes the registry's lock


@dataclass(frozen=True)
class Subcommand:
    """A subcommand `some-name` is the module `some_name` unless `module` names another one.

    The module has `add(parser)`, which adds the options, and `run(context)`, which returns a status.
    """

    name: str
    help: str
    lock: str = EXCLUSIVE
    needs_root: bool = True
    needs_registry: bool = True  # the registry was made by `init`
    is_internal: bool = False  # for units and packages
    may_meet_job: bool = False  # may run while a job is unfinished
    module: str = ""
    passes_on: bool = False  # words that it doesn't know are for another program: options.words

    @property
    def module_name(self) -> str:
        return self.module or self.name.replace("-", "_")


def reading(name: str, text: str, **more) -> Subcommand:
    return Subcommand(name, text, lock=FREE, needs_root=False, may_meet_job=True, **more)


def of_unit(name: str, text: str, **more) -> Subcommand:
    return Subcommand(name, text, lock=FREE, needs_root=False, needs_registry=False, is_internal=True, may_meet_job=True, **more)


SUBCOMMANDS = (
    reading("status", "show the registry on one screen", needs_registry=False),
    reading("doctor", "name each problem, what still works, and the next command", needs_registry=False),
    reading("logs", "show the messages of avroreg, its backups and its commands", needs_registry=False),
    Subcommand("init", "make a registry, and start it", needs_registry=False),
    Subcommand("port", "serve on another port"),
    Subcommand("nginx", "let other machines in, with TLS and users", passes_on=True),
    Subcommand("user", "add, change and remove users of nginx", module="nginx", passes_on=True),
    Subcommand("pause", "answer writes with 503", lock=FREE),
    Subcommand("resume", "accept writes again", lock=FREE, module="pause"),
    Subcommand("read-only", "refuse writes with 42205"),
    Subcommand("backup", "make a checked backup now", lock=SHARED),
    Subcommand("backups", "list the backups; remove old ones", lock=FREE, needs_root=False, may_meet_job=True),
    Subcommand("drill", "serve a backup next to the registry, and compare", lock=SHARED),
    Subcommand("restore", "replace the registry by a backup", needs_registry=False),
    Subcommand("lost-ids", "use up ids that were lost"),
    Subcommand("folder", "back up or restore a registry that no unit serves, such as a container's", lock=FREE, needs_root=False, needs_registry=False),
    Subcommand("rescue", "save what a running avroreg still has"),
    Subcommand("repair", "repair owner, mode, hard links, and a log's header that was saved"),
    Subcommand("accept", "serve a file that the guard refused", needs_registry=False),
    Subcommand("upgrade", "install another release"),
    Subcommand("rollback", "go back to the release of before"),
    Subcommand("move", "move the registry to a larger disk"),
    Subcommand("copy-from", "copy another registry into this one"),
    Subcommand("copy-to", "copy this registry to another one"),
    Subcommand("continue", "finish the unfinished command", may_meet_job=True, needs_registry=False, module="resume_job"),
    Subcommand("undo", "take back the unfinished command", may_meet_job=True, needs_registry=False, module="resume_job"),
    of_unit("guard", "before each start: refuse one that would lose or replace data"),
    of_unit("contain", "run avroreg in a container"),
    of_unit("started", "after each start: note what the server has open"),
    of_unit("before-stop", "before each stop: save removed files"),
    of_unit("settle", "after each end: note how the server ended"),
    Subcommand("after-backup", "copy the newest backup to another machine", lock=FREE, is_internal=True, may_meet_job=True),
    of_unit("nightly", "make a checked backup, and remove old ones"),
    of_unit("watch", "write metrics, and act"),
    of_unit("placed", "after another program put a file in place: mark it"),
    of_unit("package-before", "before an upgrade by apt: back up", module="package"),
    of_unit("package-after", "after an installation: adopt, migrate, start", module="package"),
)


def is_present(subcommand: Subcommand) -> bool:
    return importlib.util.find_spec(f"{__package__}.{subcommand.module_name}") is not None


def module_of(subcommand: Subcommand):
    return importlib.import_module(f"{__package__}.{subcommand.module_name}")


def common() -> argparse.ArgumentParser:
    parser = argparse.ArgumentParser(add_help=False)
    parser.add_argument("--registry", metavar="NAME", help="which registry; by default the only one, or `default`")
    parser.add_argument("--json", action="store_true", help="print the result as JSON")
    parser.add_argument("--dry-run", action="store_true", help="print the plan, and change nothing")
    parser.add_argument("--yes", action="store_true", help="don't ask")
    return parser


class Parser(argparse.ArgumentParser):
    """Wrong arguments end with status 64."""

    def error(self, message: str):
        raise Stop(USAGE, f"{message}. See {self.prog} --help")


def overview(shows_all: bool) -> str:
    shown = [command for command in SUBCOMMANDS if is_present(command) and (shows_all or not command.is_internal)]
    lines = [f"  {command.name:<15} {command.help}" for command in shown]
    return "\n".join(["usage: avroreg-admin COMMAND [OPTION]..", "", "Run it as root on the registry's machine. COMMAND --help lists the options.", "", *lines, "",
                      *(["options of all commands: --registry NAME, --json, --dry-run, --yes", ""]), STATUSES])


def parse(command: Subcommand, words: list[str]) -> argparse.Namespace:
    if not command.passes_on:
        return parser_of(command).parse_args(words)
    options, options.words = parser_of(command).parse_known_args(words)
    return options


def subcommand_of(name: str) -> Subcommand:
    for command in SUBCOMMANDS:
        if command.name == name and is_present(command):
            return command
    raise Stop(USAGE, f"there is no command {name}. See avroreg-admin --help")


def parser_of(command: Subcommand) -> Parser:
    module = module_of(command)
    parser = Parser(prog=f"avroreg-admin {command.name}", parents=[common()], epilog=STATUSES, formatter_class=argparse.RawDescriptionHelpFormatter,
                    description=module.__doc__, allow_abbrev=not command.passes_on)
    parser.set_defaults(command=command.name)
    module.add(parser)
    return parser
