#!/usr/bin/env python3
"""Fills a registry's file, and measures how many requests a second the program answers over it.

The script sends whole requests to the standard input of `run`. So it measures neither sockets nor the program's start.
AVROREG names the program. `command time -v` shows how long `list`, `migrate` and `audit` take, and their memory.

    bench_requests.py fill versions F 100000 10000 700
    bench_requests.py measure versions F 100000 10000 700 5000
"""

import argparse
import contextlib
import functools
import json
import os
import shutil
import sqlite3
import subprocess
import sys
import tempfile
import time
from typing import NamedTuple

from known import TRIALS

from harness.messages import build_request
from harness.program import PROGRAM
from harness.reading import read_cases

FIELD = 56  # bytes of a field in a schema
READ = 1 << 20  # the most bytes of output in one read
SUCCESS = b"HTTP/1.1 200 OK\r\n"
LEVEL = '{"compatibility":"FULL"}'
KEPT = ('["set-global","FULL"]', 200, LEVEL)


class Size(NamedTuple):
    """The numbers of versions and subjects in a registry, and about how many bytes a schema takes. Each version has its own schema."""

    versions: int
    subjects: int
    bytes: int


class Kind(NamedTuple):
    """A kind of requests. In its texts, `{subject}` is the number of the version's subject, `{id}` the version's id, and `{at}`
    the request's position."""

    which: str  # the version of a request: "next" a new one, "same" the one at its position, "apart" scattered over the registry
    method: str
    target: str
    body: str | None = None  # "schema" means the version's schema
    key: str | None = None


KINDS = {
    "types of schemas": Kind("apart", "GET", "/schemas/types"),
    "global level": Kind("apart", "GET", "/config"),
    "level of a subject": Kind("apart", "GET", "/config/subject-{subject}"),
    "set a level, new key": Kind("apart", "PUT", "/config/subject-{subject}", LEVEL, "new-{at}"),
    "set a level, retry": Kind("apart", "PUT", "/config/subject-{subject}", LEVEL, "key-{subject}"),
    "set a level, no key": Kind("apart", "PUT", "/config/subject-{subject}", LEVEL),
    "schema by id": Kind("apart", "GET", "/schemas/ids/{id}"),
    "versions": Kind("apart", "GET", "/subjects/subject-{subject}/versions"),
    "latest version": Kind("apart", "GET", "/subjects/subject-{subject}/versions/latest"),
    "look up": Kind("apart", "POST", "/subjects/subject-{subject}", "schema"),
    "check": Kind("apart", "POST", "/compatibility/subjects/subject-{subject}/versions", "schema"),
    "register again": Kind("apart", "POST", "/subjects/subject-{subject}/versions", "schema"),
    "new subject": Kind("apart", "POST", "/subjects/new-{at}/versions", "schema"),
    "delete": Kind("same", "DELETE", "/subjects/subject-{subject}"),
    "delete permanently": Kind("same", "DELETE", "/subjects/subject-{subject}?permanent=true"),
}
KINDS["register"] = KINDS["register again"]._replace(which="next")
OWN_LEVEL = KINDS["set a level, retry"]._replace(which="next")
COMPARE_WITH_ALL = Kind("same", "PUT", "/config", '{"compatibility":"BACKWARD_TRANSITIVE"}')

# The kinds that fill a registry, and the kinds to measure over it, in this order.
SERIES = {
    "levels": ([OWN_LEVEL], ["global level", "level of a subject", "set a level, retry", "set a level, no key", "set a level, new key"]),
    "versions": (
        [KINDS["register"]],
        ["types of schemas", "global level", "schema by id", "versions", "latest version", "look up", "check", "register again", "new subject", "register"],
    ),
    "transitive": ([COMPARE_WITH_ALL, KINDS["register"]], ["register", "delete", "delete permanently"]),
    "deletions": ([KINDS["register"]], ["delete", "delete permanently"]),
}


def schema(number, size):
    """A record of fields that may be null. All of these schemas are compatible."""
    fields = [{"default": None, "name": f"field{at}", "type": ["null", "string"]} for at in range(size.bytes // FIELD)]
    return json.dumps({"doc": str(number), "fields": fields, "name": "R", "type": "record"}, separators=(",", ":"))


def request_at(kind, size, at):
    number = {"next": size.versions + at, "same": at, "apart": at * 7919 % max(size.versions, 1)}[kind.which]
    values = {"subject": number % size.subjects, "id": number + 1, "at": at}
    body = json.dumps({"schema": schema(number, size)}) if kind.body == "schema" else kind.body
    fields = [f"Registry-Retry-Key: {kind.key.format(**values)}"] if kind.key else []
    return build_request(kind.method, kind.target.format(**values), body, fields)


def rate(file, kind, size, count):
    """How many requests of a kind the program answers a second. Exits if a request fails."""
    with tempfile.TemporaryFile() as sent:
        sent.writelines(request_at(kind, size, at) for at in range(count))
        sent.seek(0)
        with subprocess.Popen([PROGRAM, "run", "--db", file], stdin=sent, stdout=subprocess.PIPE) as running:
            read = [(part, time.perf_counter()) for part in iter(functools.partial(running.stdout.read1, READ), b"")]
    succeeded = b"".join(part for part, _ in read).count(SUCCESS)
    if running.returncode or succeeded != count:
        sys.exit(f"{succeeded} of {count} requests succeeded, and the status is {running.returncode}")
    # The program's start precedes the first part, so only the responses after that part are timed.
    return (succeeded - read[0][0].count(SUCCESS)) / max(read[-1][1] - read[0][1], 1e-6)


def fill(series, file, size):
    made = size._replace(versions=0)
    for kind in SERIES[series][0]:
        rate(file, kind, made, 1 if kind is COMPARE_WITH_ALL else size.versions)


def fill_layout_one(file, size):
    """Makes a registry of layout 1 with one kept reply for each version."""
    first = read_cases(f"{TRIALS}/../tests/command_lines/migrate")[0].names["FIRST"]
    with open(file, "xb") as made:
        made.write(first())
    numbers = range(size.versions)
    with contextlib.closing(sqlite3.connect(file)) as database, database:
        database.executemany("INSERT INTO texts VALUES (?, ?)", ((it + 1, schema(it, size)) for it in numbers))
        places = ((f"subject-{it % size.subjects}", it // size.subjects + 1, it + 1) for it in numbers)
        database.executemany("INSERT INTO versions VALUES (?, ?, ?, 0)", places)
        database.executemany("INSERT INTO kept VALUES (?, ?, ?, ?)", ((f"key-{it}", *KEPT) for it in numbers))


def measure(series, file, size, count):
    """Prints a line for each kind. It measures a copy, which is in the file's folder."""
    with tempfile.TemporaryDirectory(dir=os.path.dirname(os.path.abspath(file))) as folder:
        copy = shutil.copy(file, folder)
        for name in SERIES[series][1]:
            print(f"{name:<22} {rate(copy, KINDS[name], size, count):>9,.0f} a second")


def positive(text):
    number = int(text)
    if number < 1:
        raise ValueError
    return number


def main():
    parser = argparse.ArgumentParser(description=__doc__, formatter_class=argparse.RawDescriptionHelpFormatter)
    parser.add_argument("task", choices=["fill", "fill-layout-1", "measure"])
    parser.add_argument("series", choices=SERIES)
    parser.add_argument("file", help="for fill, a missing or empty file")
    parser.add_argument("versions", type=positive, help="for levels, the number of subjects with their own level and a retry key")
    parser.add_argument("subjects", type=positive)
    parser.add_argument("bytes", type=int, help="of a schema")
    parser.add_argument("count", type=positive, nargs="?", default=1000, help="requests of each kind")
    given = parser.parse_args()
    if given.task == "fill-layout-1" and given.series != "versions":
        parser.error("only the series versions can be filled in layout 1")
    if not os.path.isfile(PROGRAM):
        sys.exit(f"{PROGRAM} is missing: build it, or name the program in AVROREG")
    size = Size(given.versions, given.subjects, given.bytes)
    if given.task == "measure":
        measure(given.series, given.file, size, given.count)
    elif given.task == "fill-layout-1":
        fill_layout_one(given.file, size)
    else:
        fill(given.series, given.file, size)


if __name__ == "__main__":
    main()
