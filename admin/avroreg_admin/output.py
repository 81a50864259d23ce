"""What commands print, their statuses, and the errors that end them."""

import json
import os
import re
import sys
from dataclasses import asdict, dataclass, field

DONE, NO, ERROR, STOPPED, USAGE, BUSY, NOT_ROOT = 0, 1, 2, 3, 64, 75, 77
STATUSES = """\
status  0   done, or healthy
        1   the answer is no: findings, a difference, or a plan that can't be done; nothing was changed
        2   an error; nothing was changed, or everything was put back
        3   stopped on the way: `avroreg-admin continue` or `avroreg-admin undo`
        64  wrong arguments
        75  another command holds the registry's lock
        77  needs root"""
COLOURS = {"ok": "32", "warn": "33", "PROBLEM": "31", "next": "36"}
LABEL_WIDTH = 6
COMMAND = re.compile(r"\bavroreg-admin [a-z]+(-[a-z]+)*(?![a-z-])(?![^\n]*--registry)")


class Stop(Exception):
    """Ends a command with a status, a message, and the lines `next` that help."""

    def __init__(self, status: int, message: str, *next_commands: str):
        super().__init__(message)
        self.status, self.message, self.next_commands = status, message, next_commands


@dataclass(frozen=True)
class Finding:
    """A problem that a check found. The id is a heading of docs/incident.md, and the label of its alert."""

    id: str
    what: str
    works: str = ""  # what still works
    next: tuple[str, ...] = ()  # commands, the best one first
    is_information: bool = False
    details: tuple[str, ...] = field(default=())


class Output:
    """Prints results on standard output: `ok`, `warn`, `PROBLEM`, `next`, or a label of the command's own."""

    def __init__(self, stream=None, as_json: bool = False):
        self.stream = stream or sys.stdout
        self.registry = ""  # the name of a further registry: commands that are printed get it
        self.as_json = as_json
        self.has_colours = not as_json and self.stream.isatty() and "NO_COLOR" not in os.environ

    def line(self, label: str, text: str) -> None:
        """One line, or more: those after the first are indented."""
        if self.as_json:
            return
        first, *rest = printable(of_registry(text, self.registry)).split("\n")
        colour = COLOURS.get(label) if self.has_colours else None
        shown = f"\033[{colour}m{label}\033[0m{' ' * max(0, LABEL_WIDTH - len(label))}" if colour else f"{label:<{LABEL_WIDTH}}"
        write("\n".join([f"{shown}{'' if shown.endswith(' ') else ' '}{first}", *(" " * LABEL_WIDTH + line for line in rest)]), self.stream)

    def ok(self, text: str) -> None:
        self.line("ok", text)

    def warn(self, text: str) -> None:
        self.line("warn", text)

    def next(self, text: str) -> None:
        self.line("next", text)

    def text(self, text: str) -> None:
        self.line("", text)

    def step(self, number: int, count: int, text: str) -> None:
        self.line(f"{number}/{count}", f"ok  {text}")

    def plan(self, rows: list[tuple[str, str]]) -> None:
        """A plan: rows of a name and a text."""
        width = max((len(name) for name, _ in rows), default=0)
        lines = [f"{name:<{width}}  " + text.replace("\n", "\n" + " " * (width + 2)) for name, text in rows]
        self.line("plan", "\n".join(lines))

    def problem(self, finding: Finding) -> None:
        lines = [f"{finding.id}  {finding.what}" + (f" {finding.works}" if finding.works else ""), *finding.details]
        self.line("warn" if finding.is_information else "PROBLEM", "\n".join(lines))
        for command in finding.next:
            self.next(command)

    def data(self, value) -> None:
        """The result for `--json`."""
        if self.as_json:
            write(json.dumps(value, ensure_ascii=False, default=lambda item: asdict(item)), self.stream)


def of_registry(text: str, name: str) -> str:
    """The text with `--registry NAME` in each command, so that a person who copies it doesn't change another registry."""
    return COMMAND.sub(rf"\g<0> --registry {name}", text) if name else text


def printable(text: str) -> str:
    """The text without control characters, since names come from clients."""
    return "".join(character if character == "\n" or character.isprintable() else "\\x%02x" % ord(character) for character in text)


def write(text: str, stream) -> None:
    """Prints a text. If nobody reads it any more, such as on a lost terminal, the command goes on in silence."""
    try:
        print(text, file=stream, flush=True)
    except OSError:
        with open(os.devnull, "w", encoding="utf-8") as nothing:
            os.dup2(nothing.fileno(), stream.fileno())


def error(message: str) -> None:
    write(f"avroreg-admin: {printable(message)}", sys.stderr)
