#!/usr/bin/env python3
"""Writes docs/definitions.md, the index of the definitions on which the contracts that docs/proofs.md quotes rest.

The index has a definition if it is quoted, or if a quote rests on it, directly or through other definitions, and another file
names it. The definitions of specs/Inside/ only help the proofs: no public contract names them. Each definition has the line
where it begins, and the first sentence of its comment without the source that it cites.

    docs/index.py           writes the page
    docs/index.py --check   compares the page with the definitions: status 1 if it differs
    docs/index.py --whole   prints all definitions as one page, for a reader without the repository
"""

import re
import sys
from functools import cache
from pathlib import Path
from typing import NamedTuple

from quotes import PAGE as PROOFS
from quotes import ROOT, quotes_of

PAGE = ROOT / "docs" / "definitions.md"
# The sections in reading order, with the beginnings of their files' names. A file belongs to the first section that fits.
SECTIONS = [
    ("Avro", ("avro_nodes/", "avro_schema/", "avro_resolve/")),
    ("The abstract machine", ("reg_core/",)),
    ("Retries", ("reg_service/Deliveries", "reg_service/Admissions")),
    ("Storage", ("reg_tables/", "reg_rows/", "reg_store/")),
    ("Crashes", ("reg_service/",)),
    ("HTTP", ("reg_messages/", "reg_routes/")),
    ("The server", ("reg_output/", "reg_http/", "reg_jobs/")),
    ("Other", ("",)),
]
HEAD = """# Definitions

`docs/index.py` writes this page: don't edit it. It lists the definitions on which the contracts of [proofs.md](proofs.md) rest, in reading order. A number is the line in the file above it. The text is the first sentence of the definition's comment; read the definition itself where it is.

A definition is here if proofs.md quotes it. It is also here if a quote rests on it, directly or through other definitions, and another file names it. The rest of a file is read with it. Public contracts don't cite files of `specs/Inside/`. `step` computes by some of them; laws say what the result means. `docs/index.py --whole` prints all definitions as one page.
"""
DEFINED = re.compile(r"\s*(?:abbrev pub|unfoldable pub|pub record|pub data) (\w+)")
USED = re.compile(r"^\s*(?:ghost )?use Rattle\.(\w+)\.specs\.([\w.]+)\.(?:\{([^}]*)\}|(\w+))", re.M)
SOURCE = re.compile(
    r"(?:This project's choice|Schema Registry API reference[^:]*|Schema Evolution and Compatibility[^:]*|SQLite, [^:]*|RFC [^:]*): ",
    re.I,
)
CITED = re.compile(r" \((?:Avro 1\.11 [^)]*|Schema Resolution[^)]*|Aliases[^)]*|this project's choice)\)")
SENTENCE = re.compile(r".*?[.!?](?=\s+[A-Z`]|$)")


class Definition(NamedTuple):
    """A definition of a file: its name, its first line, its comment and its text."""

    file: str
    name: str
    line: int
    comment: str
    text: str


@cache
def lines_of(file):
    """The lines of a file, named by its path in the repository."""
    return (ROOT / file).read_text(encoding="utf-8").splitlines()


def short_name(file):
    """The crate and the module of a file of definitions: reg_core/Machine."""
    return file.removeprefix("crates/").replace("/specs/", "/", 1).removesuffix(".antt")


@cache
def definitions_of(file):
    """The definitions of a file by name, in its order."""
    found, comment = {}, []
    lines = lines_of(file)
    starts = [number for number, line in enumerate(lines) if DEFINED.match(line)]
    for number, line in enumerate(lines):
        if line.lstrip().startswith("--"):
            comment.append(line.lstrip("- ").strip())
            continue
        if line.strip() == "mutual":
            continue
        if number in starts:
            end = next((start for start in starts if start > number), len(lines))
            text = "\n".join(part for part in lines[number:end] if not part.lstrip().startswith("--"))
            name = DEFINED.match(line)[1]
            found[name] = Definition(file, name, number + 1, " ".join(comment), text)
        comment = []
    return found


@cache
def scope_of(file):
    """The definitions that a file can name: those that it uses, and its own."""
    scope = {}
    for crate, module, names, name in USED.findall("\n".join(lines_of(file))):
        other = f"crates/{crate}/specs/{module.replace('.', '/')}.antt"
        if (ROOT / other).is_file():
            for used in (names or name).split(","):
                original, _, alias = used.strip().partition(" as ")
                if original in definitions_of(other):
                    scope[alias or original] = definitions_of(other)[original]
    return scope | (definitions_of(file) if file.endswith(".antt") else {})


def named_in(text, scope):
    """The definitions that a text names."""
    return {scope[word] for word in set(re.findall(r"\w+", text)) if word in scope}


def quoted():
    """The definitions that the page on proofs quotes, and those that its quotes name."""
    quotes, named = set(), set()
    for _, file, quote in quotes_of(PROOFS.read_text(encoding="utf-8").splitlines()):
        code = "\n".join(line for line in quote if not line.lstrip().startswith(("--", "//")))
        if (ROOT / file).is_file():
            named |= named_in(code, scope_of(file))
            quotes |= {one for name, one in definitions_of(file).items() if one.text.strip() in code}
    return quotes, named


def reached(left):
    """The definitions on which these rest, with these."""
    found = set()
    while left:
        one = left.pop()
        found.add(one)
        left |= named_in(one.text, scope_of(one.file)) - found
    return found


def spec_files():
    """The files of definitions, without lists of modules."""
    files = (file.relative_to(ROOT).as_posix() for file in sorted(ROOT.glob("crates/*/specs/**/*.antt")))
    return [file for file in files if definitions_of(file)]


def indexed():
    """The definitions of the index."""
    named = set()
    for file in [*spec_files(), *(path.relative_to(ROOT).as_posix() for path in ROOT.glob("crates/*/src/**/*.rt"))]:
        named |= {one for one in scope_of(file).values() if one.file != file}
    quotes, roots = quoted()
    return [one for one in quotes | (reached(roots) & named) if "/Inside/" not in one.file]


def section_of(file):
    """The number of a file's section."""
    return next(number for number, (_, starts) in enumerate(SECTIONS) if short_name(file).startswith(starts))


def in_reading_order(files):
    """The files by section and crate, each after those that it uses."""
    crates = re.findall(r"^(\w+):", (ROOT / "crates.txt").read_text(encoding="utf-8"), re.M)
    ordered = []

    def add(file):
        for used in sorted({one.file for one in scope_of(file).values()} & set(files) - {file}):
            if file not in ordered and used.split("/")[1] == file.split("/")[1]:
                add(used)
        if file not in ordered:
            ordered.append(file)

    for file in sorted(files):
        add(file)
    return sorted(ordered, key=lambda file: (section_of(file), crates.index(file.split("/")[1])))


def first_sentence(comment):
    """The first sentence of a comment without its source."""
    source = SOURCE.match(comment)
    text = CITED.sub("", comment[source.end() :] if source else comment)
    found = SENTENCE.match(text)
    sentence = found[0] if found else text
    return sentence if sentence.count("(") == sentence.count(")") else sentence.rpartition(" (")[0]


def page():
    """The index."""
    chosen = indexed()
    lines, section = [HEAD], None
    for file in in_reading_order({one.file for one in chosen}):
        if section_of(file) != section:
            section = section_of(file)
            lines.append(f"## {SECTIONS[section][0]}\n")
        lines.append(f"[{short_name(file)}](../{file})\n")
        for one in sorted((one for one in chosen if one.file == file), key=lambda one: one.line):
            meaning = first_sentence(one.comment)
            lines.append(f"- `{one.name}` {one.line}" + (f": {meaning}" if meaning else ""))
        lines.append("")
    return "\n".join(lines)


def whole():
    """All definitions as one page: those that help the proofs last."""
    files = in_reading_order(spec_files())
    for file in sorted(files, key=lambda file: "/Inside/" in file):
        yield f"## {short_name(file)}\n\n```\n" + "\n".join(line for line in lines_of(file) if not USED.match(line)) + "\n```\n"


def main(options):
    if "--whole" in options:
        print("\n".join(whole()))
        return 0
    text = page()
    if "--check" not in options:
        PAGE.write_text(text, encoding="utf-8")
    elif not PAGE.is_file() or PAGE.read_text(encoding="utf-8") != text:
        print("docs/definitions.md differs from the definitions: run docs/index.py")
        return 1
    print(f"docs/definitions.md: {text.count(chr(10) + '- ')} definitions, {len(text.encode())} bytes")
    return 0


if __name__ == "__main__":
    sys.exit(main(sys.argv[1:]))
