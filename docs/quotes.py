#!/usr/bin/env python3
"""Compares the quotes of docs/proofs.md with the files that it quotes.

A quote is a block between lines of ```. The line before it has its file's path in backticks. The lines of the block have to
be in that file, one after another, and each bracket that they open has to be closed. Prints what differs, with status 1, or
one line.

    docs/quotes.py            compares the page
    docs/quotes.py --quotes   writes the quotes: the same definitions, as their files have them now
"""

import re
import sys
from pathlib import Path

ROOT = Path(__file__).resolve().parent.parent
PAGE = ROOT / "docs" / "proofs.md"
NAMED = re.compile(r"`(crates/[^`]+)`")
DEFINED = re.compile(r"\s*(?:abbrev pub|unfoldable pub|pub record|pub data|pub fn) (\w+)")
COMMENT = re.compile(r"\s*(--|//)")


def lines_of(path):
    """The lines of a file of the repository, or None if it isn't there."""
    file = ROOT / path
    return file.read_text(encoding="utf-8").splitlines() if file.is_file() else None


def is_in(quote, lines):
    """Whether the lines of the quote are among these, one after another."""
    count = len(quote)
    return any(lines[at : at + count] == quote for at in range(len(lines) - count + 1))


def is_whole(quote):
    """Whether each bracket that the quote opens is closed, comments aside. An open brace at the end may begin a body."""
    code = "\n".join(line for line in quote if not COMMENT.match(line)).removesuffix("{")
    return all(code.count(opening) == code.count(closing) for opening, closing in ("()", "[]", "{}"))


def quotes_of(lines):
    """Yields of each quote the number of the line before it, its file's path, and its lines."""
    path, begin = None, None
    for number, line in enumerate(lines, 1):
        if line.startswith("```") and begin is None:
            begin = number
        elif line.startswith("```"):
            yield begin, path, lines[begin : number - 1]
            path, begin = None, None
        elif begin is None and line and (named := NAMED.fullmatch(line)):
            path = named[1]
    if begin is not None:
        yield begin, None, []


def faults_of_quotes(lines):
    """What is wrong with each quote."""
    for number, path, quote in quotes_of(lines):
        found = lines_of(path) if path else None
        if found is None:
            yield f"docs/proofs.md:{number}: no file is named before the quote, or the file is missing"
        elif not quote or not is_in(quote, found):
            yield f"docs/proofs.md:{number}: the quote isn't in {path}"
        elif not is_whole(quote):
            yield f"docs/proofs.md:{number}: the quote from {path} ends inside a bracket"


def position_of(name, lines):
    """The index of the line that begins the definition of a name."""
    return next((at for at, line in enumerate(lines) if (found := DEFINED.match(line)) and found[1] == name), None)


def refreshed(quote, lines):
    """The same definitions as these lines have them, or None if they lack one. An unchanged quote stays."""
    names = [found[1] for line in quote if (found := DEFINED.match(line))]
    places = [position_of(name, lines) for name in names]
    if is_in(quote, lines) or not places or None in places:
        return quote if is_in(quote, lines) else None
    begin, end = places[0], places[-1] + 1
    while begin > 0 and COMMENT.match(lines[begin - 1]) and COMMENT.match(quote[0]):
        begin -= 1
    is_code = lines[places[-1]].lstrip().startswith("pub fn")
    while end < len(lines) and (lines[end].strip() not in ("{", "}") if is_code else lines[end]):
        end += 1
    return lines[begin:end]


def with_quotes(lines):
    """The page with each quote as its file has it."""
    page = list(lines)
    for number, path, quote in reversed(list(quotes_of(lines))):
        found = lines_of(path) if path else None
        new = refreshed(quote, found) if found else None
        if new is not None:
            page[number : number + len(quote)] = new
    return page


def main(options):
    lines = PAGE.read_text(encoding="utf-8").splitlines()
    if "--quotes" in options:
        lines = with_quotes(lines)
        PAGE.write_text("\n".join(lines) + "\n", encoding="utf-8")
    faults = list(faults_of_quotes(lines))
    for fault in faults:
        print(fault)
    if not faults:
        print(f"docs/proofs.md: {sum(1 for _ in quotes_of(lines))} quotes are right")
    return 1 if faults else 0


if __name__ == "__main__":
    sys.exit(main(sys.argv[1:]))
