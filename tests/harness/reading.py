"""Parses the files of cases."""

import json
import os
import re

from .program import TESTS, CaseError
from .tables import database


class Line:
    """A line of a case, without its indentation.

    number    its number in the file
    text      the whole line
    inner     the lines indented below it, each as a str
    location  "line NUMBER", for error texts
    keyword   its first word
    argument  the rest, after the keyword
    """

    def __init__(self, number, text):
        self.number, self.text, self.inner = number, text, []
        self.location = f"line {number}"
        self.keyword, _, argument = text.partition(" ")
        self.argument = argument.strip(" ")

    def inner_lines(self):
        """Returns the lines indented below this one, each as a Line with this one's number."""
        return [Line(self.number, text) for text in self.inner]


class Case:
    """A case: its file, the number of its first line, its name, its lines, and the values of the names in them."""

    def __init__(self, file, number, name, names):
        self.file, self.number, self.name, self.names, self.lines = file, number, name, names, []

    def substitute(self, text):
        """Returns the text with each <NAME> and <"NAME"> replaced, as `substitute` does."""
        return substitute(text, self.names)

    def value(self, argument):
        """Returns the value of an argument: of `:= EXPRESSION` the expression's value, else the text with names replaced."""
        return evaluate(argument[3:], self.names) if argument.startswith(":= ") else self.substitute(argument)

    def bytes(self, argument):
        """Returns the value of an argument as bytes."""
        value = self.value(argument)
        return value if isinstance(value, bytes) else value.encode()


def substitute(text, names):
    """Returns the text with each <NAME> replaced by its value, and each <"NAME"> by its value as a JSON string. Names without
    a value stay."""

    def replace(match):
        is_quoted, name = match[1], match[2]
        if name not in names:
            return match[0]
        return quote(names[name]) if is_quoted else names[name]

    return re.sub(r'<("?)([A-Z][A-Z0-9_]*)\1>', replace, text)


def quote(text):
    """Returns the text as a JSON string."""
    return json.dumps(text, ensure_ascii=False)


def evaluate(expression, names):
    """Returns the value of a Python expression, which can use the names, `json` and `database`."""
    return eval(expression, {"json": json, "database": database, **names})


def read_cases(file):
    """Returns the cases of a file. They can use the names that the file defines, and those of tests/names.

    Raises CaseError with the file and the line if a line can't be parsed.
    """
    cases, names = [], {}
    for path in (f"{TESTS}/names", file):
        with open(path, encoding="utf-8", newline="\n") as opened:
            for number, line in enumerate(opened.read().split("\n"), 1):
                try:
                    names = parse_line(line, number, file, cases, names)
                except CaseError as error:
                    raise CaseError(f"{os.path.relpath(path, TESTS)}:{number}: {error}") from None
    for case in cases:
        case.names = names
    return cases


def parse_line(line, number, file, cases, names):
    """Parses a line, and returns the names defined up to it. Appends a new case to `cases`, or the line to the last case."""
    text = line.strip(" ")
    depth = len(line) - len(line.lstrip(" "))
    if not text or text.startswith("#"):
        return names
    if depth == 0 and text.startswith("let "):
        return {**names, **parse_definition(text, names)}
    if depth == 0:
        cases.append(Case(file, number, text, names))
    elif depth == 4 and cases:
        cases[-1].lines.append(Line(number, text))
    elif cases and cases[-1].lines:
        cases[-1].lines[-1].inner.append(text)
    else:
        raise CaseError("an indented line needs a case or a line above it")
    return names


def parse_definition(text, names):
    """Returns the name that a `let` line defines, with its value, as a dict. Raises CaseError if it is already defined."""
    match = re.fullmatch(r"let ([A-Z][A-Z0-9_]*) (:?=) (.*)", text)
    if not match:
        raise CaseError("expected let NAME = TEXT, or let NAME := EXPRESSION")
    name, operator, value = match.groups()
    if name in names:
        raise CaseError(f"{name} is already defined")
    return {name: evaluate(value, names) if operator == ":=" else substitute(value, names)}
