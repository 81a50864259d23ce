#!/usr/bin/env python3
"""Lists the schemas of a folder, for check-schemas.sh and register-schemas. So both read exactly the same files.

    schema_files.py DIR     prints a JSON object for each schema: its file's name, its subject, and its text

A schema is a file of DIR whose name ends in `.avsc`. The name without `.avsc` is its subject; %2F is a slash, %25 a percent sign.
Subfolders aren't read. The script lists nothing, and prints the reasons, if DIR has a file `.avsc` that can't be used: a hidden
file; a name that isn't UTF-8 or has control characters; a second file of a subject; anything but a regular file or a link to one
inside DIR; a text that isn't UTF-8, or has more than 1,048,576 bytes. Status 2 then, and if there is no schema; 64 for wrong
arguments.
"""

import json
import os
import stat
import sys
from collections.abc import Iterator
from dataclasses import asdict, dataclass
from pathlib import Path

ENDING = ".avsc"
MOST_BYTES = 1_048_576  # the largest body of a request
UNUSABLE, USAGE = 2, 64


class Refused(Exception):
    """The files that can't be used, a line for each."""


@dataclass(frozen=True)
class SchemaFile:
    name: str
    subject: str
    text: str


def shown(text: str) -> str:
    """The text with escapes for control characters, and for bytes that aren't UTF-8."""
    return "".join(letter if letter.isprintable() else letter.encode("unicode_escape").decode() for letter in text)


def subject_of(name: str) -> str:
    return name.removesuffix(ENDING).replace("%2F", "/").replace("%25", "%")


def check_name(name: str):
    if name.startswith("."):
        raise Refused("is hidden")
    try:
        name.encode()
    except UnicodeEncodeError:
        raise Refused("has a name that isn't UTF-8") from None
    if not name.isprintable():
        raise Refused("has a control character in its name")


def read_regular(path: Path, folder: Path) -> bytes:
    """The bytes of a regular file. A link must lead to one inside the folder."""
    real = Path(os.path.realpath(path, strict=True))
    if not real.is_relative_to(folder):
        raise Refused("is a link out of the folder")
    descriptor = os.open(real, os.O_RDONLY | os.O_NONBLOCK | os.O_NOFOLLOW)
    try:
        if not stat.S_ISREG(os.fstat(descriptor).st_mode):
            raise Refused("isn't a regular file")
        with open(descriptor, "rb", closefd=False) as file:
            return file.read(MOST_BYTES + 1)
    finally:
        os.close(descriptor)


def read_file(path: Path, folder: Path) -> SchemaFile:
    check_name(path.name)
    try:
        found = read_regular(path, folder)
    except OSError as fault:
        raise Refused(f"can't be read: {fault.strerror}") from None
    if len(found) > MOST_BYTES:
        raise Refused(f"has more than {MOST_BYTES:,} bytes")
    try:
        return SchemaFile(path.name, subject_of(path.name), found.decode())
    except UnicodeDecodeError:
        raise Refused("isn't UTF-8") from None


def refusals(paths: list[Path], folder: Path, found: dict[str, SchemaFile]) -> Iterator[str]:
    """Reads the files into `found`, by subject, and yields a line for each that can't be used."""
    for path in paths:
        try:
            file = read_file(path, folder)
            first = found.setdefault(file.subject, file)
            if first is not file:
                raise Refused(f"has the subject of {first.name}")
        except Refused as refused:
            yield f"{shown(path.name)} {refused}"


def read_folder(folder: Path) -> list[SchemaFile]:
    """The schemas of a folder in the order of their names. Raises Refused if there is none, or if a file can't be used."""
    try:
        paths = sorted((Path(entry.path) for entry in os.scandir(folder) if entry.name.endswith(ENDING)), key=os.fsencode)
        real = folder.resolve(strict=True)
    except OSError as fault:
        raise Refused(f"{shown(str(folder))} can't be read: {fault.strerror}") from None
    found: dict[str, SchemaFile] = {}
    refused = list(refusals(paths, real, found))
    if refused:
        raise Refused("\n".join(refused))
    if not found:
        raise Refused(f"no {ENDING} in {shown(str(folder))}")
    return list(found.values())


def main() -> int:
    if len(sys.argv) != 2:
        print("usage: schema_files.py DIR", file=sys.stderr)
        return USAGE
    try:
        files = read_folder(Path(sys.argv[1]))
    except Refused as refused:
        print(refused, file=sys.stderr)
        return UNUSABLE
    for file in files:
        print(json.dumps(asdict(file)))
    return 0


if __name__ == "__main__":
    sys.exit(main())
