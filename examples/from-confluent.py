#!/usr/bin/env python3
"""Copies a running schema registry into avroreg: subjects, versions, ids, soft-deleted versions, levels, modes.

    python3 examples/from-confluent.py [options] FROM TO
    python3 examples/from-confluent.py --dry-run https://registry.example.org http://127.0.0.1:8081

FROM is a running registry with Confluent's REST interface, or a running avroreg. The script only reads it. TO is an avroreg
with a new file. The script needs only Python's standard library.

It reads FROM until two readings in a row are equal. If FROM lists its schemas (GET /schemas), a reading takes two requests
for 1,000 versions and two for each subject; otherwise one for each version and four for each subject. It writes nothing
until it knows that it can copy everything. A subject keeps its version numbers, and a schema its id. If something can't be
copied unchanged, it prints the reason, and writes nothing without an option that says how to continue:

  --skip           leaves out what avroreg doesn't accept: other types than Avro, references, metadata, rule sets, schemas
                   that avroreg rejects (such as one with a non-integer number), a second live version with the schema of
                   an earlier one, subjects of a context, and attributes of a level. Version numbers that are left out
                   stay unused, and so do their ids, which then need one of the next three options.
  --fill-ids       keeps all ids, even if avroreg wouldn't assign them as 1, 2, 3.. in the order of the versions. For an id
                   that comes later, it registers the schema early; for an id that no version has, a placeholder. Both
                   get a subject that it deletes at the end, and the ids stay used up. This takes a write for each such id.
  --used-ids N     expects that the ids 1 to N are used up in the file of TO. `avroreg-admin copy-from --used-ids N` makes such
                   a file. Confluent Cloud's ids begin at 100,001: use 100000.
  --new-ids        gives new ids, and prints each change. Messages that were written with the old ids become unreadable.
  --without-modes  leaves out modes that avroreg doesn't have, such as IMPORT: a subject with such a mode gets none of its
                   own. If the global mode is one, the global mode of TO is READWRITE.

avroreg gives numbers and ids in order. To make a gap in the version numbers, the script registers the next schema, deletes
it softly and registers it again. Later it deletes the first one permanently. It writes versions under the level NONE, and
sets levels and modes last. At the end it reads TO, and compares it with the expected contents.

It reads at most a million versions, and 256 MiB in a response that is complete within five minutes. So a broken registry can't
keep it busy without an end. If a response has another form than that of a schema registry, it prints the path, and ends.

Before it writes, it prints the number of writes. On a terminal a bar shows the progress and the remaining time. It repeats
a request that gets 429 or 5xx until --patience is used up. It waits as long as Retry-After says, but at most a minute. It
sends a request without any response six times.

Every write has a retry key, made of FROM, subject, version, step and the name of the run. So if this was interrupted, run
it again with the same arguments: a write that was applied gets its response again and changes nothing. If FROM has
changed since, or the options differ, use another new file.

If somebody writes to FROM, the script copies its state at one moment, without later writes. So stop the writers first, or
set FROM's mode to READONLY. The mode is copied too: set TO's to READWRITE afterwards. HTTP doesn't return some things, so
they aren't copied: levels and modes of subjects without versions, kept replies of retry keys, and schemas that no version
has. Ids after the last one in use aren't copied either.

Passwords come from the environment: FROM_PASSWORD for --from-user, TO_PASSWORD for --to-user.

Status: 0  everything is copied, or with --dry-run: can be
        1  it can't be copied with these options, or TO isn't a new, writable avroreg; it prints the reasons and the options
           to use, and writes nothing
        2  a registry can't be read, gives a response of an unknown form, or FROM keeps changing; run it again
        3  TO gave another response than expected, or differs at the end: use a new file
        64 wrong arguments
"""
from __future__ import annotations

import argparse
import base64
import email.utils
import hashlib
import heapq
import http.client
import itertools
import json
import os
import shutil
import signal
import ssl
import sys
import time
import urllib.parse
from collections.abc import Iterable, Iterator
from dataclasses import dataclass, field, replace

LEVELS = {"NONE", "BACKWARD", "FORWARD", "FULL", "BACKWARD_TRANSITIVE", "FORWARD_TRANSITIVE", "FULL_TRANSITIVE"}
MODES = {"READWRITE", "READONLY"}
NO_LEVEL = {"compatibility": "no level"}  # an invalid level: avroreg rejects it, so the command changes nothing
PAUSES = [0.1, 0.3, 1, 3, 5]  # seconds before a request is repeated; after that LONGEST_PAUSE
LONGEST_PAUSE = 60  # seconds, even if Retry-After asks for more
PATIENCE = 600  # seconds for which a request with one of the next statuses is repeated
BUSY = {429, 500, 502, 503, 504}
PAGE = 1000  # versions in the list of one request
READINGS = 5  # of FROM, until two in a row are equal
BODY = 1_048_576  # the most bytes of a request's body that avroreg accepts
MOST = 1_000_000  # the most unused numbers before a version, the most unused ids in all, and the most versions
MOST_BYTES = 268_435_456  # of a response
LONGEST_ANSWER = 300  # seconds until a response must be complete
LARGEST = 2_147_483_647  # the largest number of a version, and the largest id
SKIP, FILL, USED, NEW, MODELESS = "--skip", "--fill-ids", "--used-ids", "--new-ids", "--without-modes"
CANNOT, UNREADABLE, DIFFERS, USAGE = 1, 2, 3, 64


class Stop(Exception):
    """Ends the program with a status and a message."""

    def __init__(self, status: int, text: str):
        super().__init__(text)
        self.status = status


class Changed(Stop):
    """The registry changed during a reading."""

    def __init__(self, where: str):
        super().__init__(UNREADABLE, f"{where} changed while it was read")


class Malformed(Stop):
    """The registry gave a response that no schema registry gives."""

    def __init__(self, where: str, what: str):
        super().__init__(UNREADABLE, f"{where} gave a response of an unknown form: {what}")


# Printing


def shown(text: object) -> str:
    """The text with escapes for control characters: they come from a registry, and a terminal obeys them."""
    return "".join(letter if letter.isprintable() else letter.encode("unicode_escape").decode() for letter in str(text))


def say(text: str):
    print(shown(text), flush=True)


# Progress


def clock(seconds: float) -> str:
    minutes, rest = divmod(round(seconds), 60)
    hours, minutes = divmod(minutes, 60)
    return f"{hours}:{minutes:02}:{rest:02}" if hours else f"{minutes}:{rest:02}"


class Progress:
    """Prints the progress of a task: on a terminal as a bar in one line, otherwise as a new line after every `every` steps."""

    current: Progress | None = None

    def __init__(self, verb: str, total: int, noun: str, every: int):
        self.verb, self.total, self.noun, self.every = verb, total, shown(noun), every
        self.done, self.begun, self.drawn = 0, time.monotonic(), 0.0
        self.is_terminal = sys.stdout.isatty()
        Progress.current = self
        self.draw()

    def step(self):
        self.done += 1
        is_last = self.done == self.total
        if not self.is_terminal:
            if is_last or self.done % self.every == 0:
                print(f"{self.verb} {self.done} of {self.total} {self.noun}", flush=True)
        elif is_last or time.monotonic() > self.drawn + 0.1:
            self.draw()
        if is_last:
            self.end()

    def left(self) -> str:
        if not self.done:
            return ""
        return f", {clock((time.monotonic() - self.begun) / self.done * (self.total - self.done))} left"

    def draw(self, note: str = ""):
        if not self.is_terminal or not self.total:
            return
        self.drawn = time.monotonic()
        text = f"{self.verb} {self.done:,} of {self.total:,} {self.noun}{note or self.left()}"
        width = shutil.get_terminal_size().columns - 1
        cells = min(30, width - len(text) - 3)
        filled = cells * self.done // self.total
        bar = f"[{'#' * filled}{'.' * (cells - filled)}] " if cells >= 5 else ""
        print(f"\r\x1b[K{(bar + text)[:width]}", end="", flush=True)

    def end(self):
        """Ends the line of the bar."""
        if Progress.current is self:
            Progress.current = None
            if self.is_terminal and self.total:
                print(flush=True)

    def over(self, items: Iterable):
        for item in items:
            yield item
            self.step()
        self.end()


def print_pause(server: str, problem: object, pause: float):
    """Prints the reason of a pause."""
    if Progress.current and Progress.current.is_terminal:
        Progress.current.draw(shown(f", {problem}, again in {clock(pause)}"))
    elif pause >= 1:
        say(f"{server}: {problem}, again in {clock(pause)}")


# Requests


@dataclass(frozen=True)
class Answer:
    status: int
    value: object
    retry_after: str | None = field(default=None, compare=False)

    @property
    def code(self):
        """The `error_code` of an error."""
        return self.value.get("error_code") if isinstance(self.value, dict) else None

    def __str__(self):
        try:
            return f"{self.status} {json.dumps(self.value, ensure_ascii=False)[:300]}"
        except RecursionError:
            return f"{self.status} and a deeply nested value"


def pause_of(retry_after: str | None) -> float | None:
    """The seconds of a Retry-After field, which has a number of seconds or a date."""
    if retry_after is None:
        return None
    if retry_after.strip().isdecimal():
        return float(retry_after)
    try:
        return email.utils.parsedate_to_datetime(retry_after).timestamp() - time.time()
    except (TypeError, ValueError, OverflowError):
        return None


def too_late(*_):
    raise TimeoutError(f"the response isn't complete after {LONGEST_ANSWER} s")


@dataclass(frozen=True)
class Part:
    """A part of a response. Each method returns what the part must be, or raises Malformed."""
    value: object
    where: str

    def check(self, is_right: bool, what: str):
        if not is_right:
            found = "a deeply nested value" if isinstance(self.value, (list, dict)) else repr(self.value)[:100]
            raise Malformed(self.where, f"{what} was expected, and {found} came")

    def text(self) -> str:
        self.check(isinstance(self.value, str), "a text")
        self.check(not any("\ud800" <= letter <= "\udfff" for letter in self.value), "a text without half characters")
        return self.value

    def number(self, least: int) -> int:
        """A whole number: for Python, true is one too."""
        self.check(type(self.value) is int and least <= self.value <= LARGEST, f"a number from {least:,} to {LARGEST:,}")
        return self.value

    def parts(self) -> list[Part]:
        self.check(isinstance(self.value, list), "a list")
        return [Part(each, self.where) for each in self.value]

    def members(self) -> dict:
        self.check(isinstance(self.value, dict), "an object")
        return self.value

    def member(self, name: str) -> Part:
        return Part(self.members().get(name), f"{self.where} in {name}")


class Server:
    """A registry, with a kept connection to it."""

    def __init__(self, url: str, user: str | None, password: str | None, authority: str | None, patience: float):
        parts = urllib.parse.urlsplit(url)
        self.url, self.path, self.patience = url.rstrip("/"), parts.path.rstrip("/"), patience
        self.fields = {"Accept": "application/vnd.schemaregistry.v1+json, application/json"}
        if user is not None:
            self.fields["Authorization"] = "Basic " + base64.b64encode(f"{user}:{password}".encode()).decode()
        if parts.scheme == "https":
            context = ssl.create_default_context(cafile=authority)
            self.connection = http.client.HTTPSConnection(parts.hostname, parts.port, timeout=60, context=context)
        else:
            self.connection = http.client.HTTPConnection(parts.hostname, parts.port, timeout=60)

    def ask(self, method: str, path: str, body: object = None, key: str | None = None) -> Answer:
        """Sends a request, and returns the response. Repeats the request if there is no response, or if the server is busy. A
        write has a key, so a repeated write is applied exactly once."""
        end, silences = time.monotonic() + self.patience, 0
        for pause in itertools.chain(PAUSES, itertools.repeat(LONGEST_PAUSE)):
            try:
                answer = self.send_once(method, path, body, key)
            except ssl.SSLCertVerificationError as fault:
                raise Stop(UNREADABLE, f"{self.url}: {fault}") from fault
            except (OSError, http.client.HTTPException, ValueError) as fault:
                self.connection.close()
                problem = reason = f"{type(fault).__name__}: {fault}"
                silences += 1
            else:
                if answer.status not in BUSY:
                    return answer
                problem, reason = answer, f"status {answer.status}"
                wish = pause_of(answer.retry_after)
                if wish is not None:
                    pause = min(max(wish, PAUSES[0]), LONGEST_PAUSE)
            if silences > len(PAUSES) or time.monotonic() + pause > end:
                break
            print_pause(self.url, reason, pause)
            time.sleep(pause)
        raise Stop(UNREADABLE, f"{self.url}{path}: {problem}")

    def send_once(self, method: str, path: str, body: object, key: str | None) -> Answer:
        fields = dict(self.fields)
        if key:
            fields["Registry-Retry-Key"] = key
        if body is not None:
            fields["Content-Type"] = "application/vnd.schemaregistry.v1+json"
            body = body_of(body)
        signal.signal(signal.SIGALRM, too_late)
        signal.alarm(LONGEST_ANSWER)
        try:
            self.connection.request(method, self.path + path, body, fields)
            answer = self.connection.getresponse()
            data = answer.read(MOST_BYTES)
            if answer.length and len(data) < MOST_BYTES:
                raise http.client.IncompleteRead(data, answer.length)
            if answer.read(1):
                self.connection.close()
                raise Malformed(f"{self.url}{path}", f"more than {MOST_BYTES:,} bytes")
        finally:
            signal.alarm(0)
        retry_after = answer.headers["Retry-After"]
        try:
            return Answer(answer.status, json.loads(data), retry_after)
        except (ValueError, RecursionError):
            return Answer(answer.status, data.decode(errors="replace"), retry_after)

    def find(self, path: str) -> Part | None:
        """The JSON at a path, or None if the registry returns 404 with an error code."""
        answer = self.ask("GET", path)
        if answer.status == 404 and answer.code is not None:
            return None
        if answer.status != 200 or isinstance(answer.value, str):
            raise Stop(UNREADABLE, f"{self.url}{path}: {answer}")
        return Part(answer.value, f"{self.url}{path}")

    def get(self, path: str) -> Part:
        found = self.find(path)
        if found is None:
            raise Stop(UNREADABLE, f"{self.url}{path}: 404")
        return found

    def offers(self, path: str) -> bool:
        """Whether the registry has this path. avroreg behind its nginx returns 422 for a path with a rejected parameter."""
        answer = self.ask("GET", path)
        if answer.status not in (200, 404, 405, 422):
            raise Stop(UNREADABLE, f"{self.url}{path}: {answer}")
        return answer.status == 200


def body_of(value: object) -> bytes:
    return json.dumps(value, ensure_ascii=False).encode()


def quote(name: str) -> str:
    return urllib.parse.quote(name, safe="")


def versions_of(name: str) -> str:
    return f"/subjects/{quote(name)}/versions"


# Reading


@dataclass(frozen=True, slots=True)
class Version:
    number: int
    id: int
    text: str
    deleted: bool = False
    more: tuple[str, ...] = ()  # its attributes that avroreg doesn't accept


@dataclass(frozen=True)
class Subject:
    versions: tuple[Version, ...]
    level: str | None = None
    mode: str | None = None
    more: tuple[str, ...] = ()
    context: bool = False  # whether it is in a context


@dataclass(frozen=True)
class Registry:
    subjects: dict[str, Subject]
    level: str
    mode: str | None  # None if the registry has no modes
    more: tuple[str, ...] = ()

    def versions(self) -> Iterator[tuple[str, Version]]:
        return ((name, version) for name, subject in self.subjects.items() for version in subject.versions)

    def __str__(self):
        subjects, versions = self.subjects.values(), [version for _, version in self.versions()]
        gaps = sum(subject.versions[-1].number - len(subject.versions) for subject in subjects)
        return (f"{len(subjects)} subjects, {len(versions)} versions ({sum(it.deleted for it in versions)} soft-deleted, "
                f"{gaps} numbers unused), {len({it.id for it in versions})} ids, "
                f"{sum(it.level is not None for it in subjects)} own levels, "
                f"{sum(it.mode is not None for it in subjects)} own modes")


def more_of_schema(schema: Part) -> Iterator[str]:
    if schema.members().get("schemaType") not in (None, "AVRO"):
        yield f"schemaType {schema.member('schemaType').text()}"
    yield from (member for member in ("references", "metadata", "ruleSet") if schema.members().get(member))


def more_of_level(level: Part | None) -> tuple[str, ...]:
    members = level.members() if level else {}
    return tuple(member for member, value in sorted(members.items()) if value and member != "compatibilityLevel")


def version_of(schema: Part, deleted: bool) -> Version:
    return Version(schema.member("version").number(1), schema.member("id").number(0), schema.member("schema").text(), deleted,
                   tuple(more_of_schema(schema)))


def list_path(deleted: bool, offset: int, limit: int) -> str:
    """The path of a page of all versions in all contexts."""
    query = {"subjectPrefix": ":*:", "deleted": str(deleted).lower(), "offset": offset, "limit": limit}
    return "/schemas?" + urllib.parse.urlencode(query)


def list_versions(server: Server, deleted: bool, names: set[str]) -> dict[str, dict[int, Version]] | None:
    """All versions of these subjects by number, read page by page. None if the registry ignores the offset."""
    found: dict[str, dict[int, Version]] = {}
    offset = 0
    while page := server.get(list_path(deleted, offset, PAGE)).parts():
        for schema in page:
            name, version = schema.member("subject").text(), version_of(schema, False)
            if version.number in found.setdefault(name, {}):
                if schema is page[0] and next(iter(found)) == name and next(iter(found[name])) == version.number:
                    return None
                raise Changed(f"{server.url}{versions_of(name)}/{version.number}")
            if name not in names:
                raise Changed(f"{server.url}{versions_of(name)}")
            found[name][version.number] = version
        offset += len(page)
        if offset > MOST:
            raise Malformed(f"{server.url}/schemas", f"more than {MOST:,} versions")
    return found


def read_list(server: Server, names: set[str]) -> dict[str, tuple[Version, ...]]:
    """The versions of each subject, read in pages. Empty if the registry can't list them."""
    if not server.offers(list_path(True, 0, 1)):
        return {}
    every = list_versions(server, True, names)
    live = list_versions(server, False, names) if every else None
    if every is None or live is None:
        return {}
    return {name: tuple(replace(versions[number], deleted=number not in live.get(name, {})) for number in sorted(versions))
            for name, versions in every.items()}


def read_numbers(server: Server, path: str) -> list[int]:
    found = server.find(path)
    return sorted({number.number(1) for number in found.parts()}) if found else []


def read_versions(server: Server, name: str) -> tuple[Version, ...]:
    """The versions of a subject, read with one request for each."""
    live = set(read_numbers(server, versions_of(name)))
    found = []
    for number in read_numbers(server, f"{versions_of(name)}?deleted=true"):
        schema = server.find(f"{versions_of(name)}/{number}?deleted=true")
        if schema is None:
            raise Changed(f"{server.url}{versions_of(name)}/{number}")
        schema.member("version").check(schema.members().get("version") == number, f"the number {number}")
        found.append(version_of(schema, number not in live))
    return tuple(found)


def read_subject(server: Server, name: str, versions: tuple[Version, ...] | None, modes: bool, contexts: bool) -> Subject:
    if versions is None:
        versions = read_versions(server, name)
    level = server.find(f"/config/{quote(name)}")
    mode = server.find(f"/mode/{quote(name)}") if modes else None
    return Subject(versions, level and level.member("compatibilityLevel").text(), mode and mode.member("mode").text(),
                   more_of_level(level), contexts and name.startswith(":."))


def read(server: Server) -> Registry:
    names = sorted({name.text() for name in server.get("/subjects?deleted=true").parts()})
    modes, contexts = server.offers("/mode"), server.offers("/contexts")
    settings, mode = server.get("/config"), server.get("/mode").member("mode").text() if modes else None
    level = settings.member("compatibilityLevel").text()
    lists = read_list(server, set(names))
    progress = Progress("read", len(names), f"subjects of {server.url}", 1000)
    subjects = {name: read_subject(server, name, lists.get(name), modes, contexts) for name in progress.over(names)}
    return Registry({name: subject for name, subject in subjects.items() if subject.versions}, level, mode, more_of_level(settings))


def read_at_one_moment(server: Server) -> Registry:
    """Reads the registry until two readings in a row are equal. So it had these contents at each moment between them."""
    last = None
    for _ in range(READINGS):
        try:
            found = read(server)
        except Changed:
            found = None
        if found is not None and found == last:
            return found
        last = found
    raise Stop(UNREADABLE, f"{server.url} keeps changing: stop its writers, or set its mode to READONLY")


# The identity text of a schema, by docs/avro-registry-profile.md. The schema is valid, since the target has accepted it.

PRIMITIVES = {"null", "boolean", "int", "long", "float", "double", "bytes", "string"}


def compact(value: object) -> str:
    return json.dumps(value, ensure_ascii=False, separators=(",", ":"), sort_keys=True)


def in_space(name: str, space: str) -> str:
    return name if "." in name or not space else f"{space}.{name}"


def canonical_reference(name: str, space: str, known: set[str]) -> str:
    full = in_space(name, space)
    return full if full in known else name


def canonical_field(member: dict, space: str, known: set[str]) -> dict:
    found = {**member, "type": canonical(member["type"], space, known)}
    if found.get("aliases") == []:
        del found["aliases"]
    if found.get("order") == "ascending":
        del found["order"]
    return found


def canonical_definition(schema: dict, outer: str, known: set[str]) -> dict:
    full = in_space(schema["name"], schema.get("namespace", outer))
    space = full.rpartition(".")[0]
    known.add(full)
    found = {**schema, "name": full}
    found.pop("namespace", None)
    if outer and not space:
        found["namespace"] = ""
    found["aliases"] = [in_space(alias, space) for alias in schema.get("aliases", [])]
    if not found["aliases"]:
        del found["aliases"]
    if schema["type"] == "record":
        found["fields"] = [canonical_field(member, space, known) for member in schema["fields"]]
    return found


def canonical(schema: object, space: str, known: set[str]) -> object:
    if isinstance(schema, list):
        return [canonical(branch, space, known) for branch in schema]
    kind = schema if isinstance(schema, str) else schema["type"]
    if kind in PRIMITIVES:
        return kind if schema == kind or len(schema) == 1 else schema
    if kind in ("record", "enum", "fixed") and kind is not schema:
        return canonical_definition(schema, space, known)
    if kind in ("array", "map") and kind is not schema:
        inner = "items" if kind == "array" else "values"
        return {**schema, inner: canonical(schema[inner], space, known)}
    return canonical_reference(kind, space, known)


def identity(text: str) -> str:
    return compact(canonical(json.loads(text, parse_float=lambda number: int(number.partition(".")[0])), "", set()))


# Planning


@dataclass(frozen=True)
class Trouble:
    """Something that can't be copied unchanged, and the option with which the rest can be copied."""
    flag: str
    where: str
    what: str


@dataclass(frozen=True)
class Step:
    """A write, and the expected response."""
    subject: str
    version: int  # 0 if the write is of no version
    name: str
    method: str
    path: str
    body: dict | None
    wanted: object

    def key(self, source: str, run: str) -> str:
        named = [source, self.subject, self.version, self.name, run]
        return hashlib.sha256(json.dumps(named).encode()).hexdigest()


def register(name: str, number: int, text: str, identifier: int) -> Step:
    return Step(name, number, "register", "POST", versions_of(name), {"schema": text}, {"id": identifier})


def delete(name: str, number: int) -> Step:
    return Step(name, number, "delete", "DELETE", f"{versions_of(name)}/{number}", None, number)


def remove(name: str, number: int) -> Step:
    return Step(name, number, "remove", "DELETE", f"{versions_of(name)}/{number}?permanent=true", None, number)


@dataclass(frozen=True)
class VersionSteps:
    """The writes of a version after the last one of its subject. Its own schema uses up the numbers between them."""
    name: str
    last: int
    version: Version

    def __len__(self) -> int:
        return 3 * (self.version.number - self.last - 1) + 1 + self.version.deleted

    def __iter__(self) -> Iterator[Step]:
        name, version, gap = self.name, self.version, range(self.last + 1, self.version.number)
        for number in gap:
            yield register(name, number, version.text, version.id)
            yield delete(name, number)
        yield register(name, version.number, version.text, version.id)
        if version.deleted:
            yield delete(name, version.number)
        for number in gap:
            yield remove(name, number)


@dataclass(frozen=True)
class FillerSteps:
    """The writes that use up the ids from `first` to `last`, as versions of a spare subject, `filled` versions after its first."""
    spare: str
    filled: int
    first: int
    last: int
    texts: dict[int, str] = field(repr=False)

    def __len__(self) -> int:
        return self.last - self.first + 1

    def __iter__(self) -> Iterator[Step]:
        for number, identifier in enumerate(range(self.first, self.last + 1), self.filled + 1):
            yield register(self.spare, number, self.texts.get(identifier) or placeholder(identifier), identifier)


@dataclass(frozen=True)
class RemovalSteps:
    """The writes that remove a subject with `count` versions."""
    name: str
    count: int

    def __len__(self) -> int:
        return 2

    def __iter__(self) -> Iterator[Step]:
        numbers, path = list(range(1, self.count + 1)), f"/subjects/{quote(self.name)}"
        yield Step(self.name, 0, "delete", "DELETE", path, None, numbers)
        yield Step(self.name, 0, "remove", "DELETE", f"{path}?permanent=true", None, numbers)


@dataclass
class Plan:
    """What will be written. A gap of a million numbers takes millions of writes, so each one is made when it is sent."""
    parts: list[Iterable[Step]] = field(default_factory=list)  # each part has a length, and makes its writes
    troubles: list[Trouble] = field(default_factory=list)
    source_texts: dict[str, str] = field(default_factory=dict)  # by identity text, the source's text
    renumbered: dict[int, int] = field(default_factory=dict)
    fillers: int = 0  # writes that use up an id, or assign it early
    wanted: Registry | None = None  # the target's expected contents

    def __len__(self) -> int:
        return sum(map(len, self.parts))

    def steps(self) -> Iterator[Step]:
        return itertools.chain.from_iterable(self.parts)

    def trouble(self, flag: str, where: str, what: str):
        self.troubles.append(Trouble(flag, where, what))

    def put(self, kind: str, name: str, member: str, value: str):
        path = f"/{kind}/{quote(name)}" if name else f"/{kind}"
        self.parts.append([Step(name, 0, kind, "PUT", path, {member: value}, {member: value})])


def spare_subject(registry: Registry) -> str:
    """A subject name that the registry doesn't have."""
    name = "from-confluent"
    while name in registry.subjects:
        name += "-"
    return name


def rejections(target: Server, registry: Registry, spare: str) -> dict[str, str]:
    """The target's errors for the texts that it rejects. A compatibility check finds them, and writes nothing."""
    rejected = {}
    for text in sorted({version.text for _, version in registry.versions() if not version.more}):
        if len(body_of({"schema": text})) > BODY:
            rejected[text] = f"takes a request of more than {BODY:,} bytes"
            continue
        answer = target.ask("POST", f"/compatibility{versions_of(spare)}", {"schema": text})
        if answer.status in (400, 413, 422):
            rejected[text] = f"avroreg answers {answer}"
        elif answer.status != 200:
            raise Stop(UNREADABLE, f"{target.url}: the check of a schema got {answer}")
    return rejected


def is_subject(name: str) -> bool:
    return 1 <= len(name.encode()) <= 255 and all(letter >= " " and letter != "\x7f" for letter in name)


def copyable_versions(plan: Plan, name: str, subject: Subject, rejected: dict[str, str]) -> Iterator[Version]:
    """The versions that can be copied, with their identity texts."""
    live, last = {}, 0
    for version in subject.versions:
        against = list(version.more)
        if version.text in rejected:
            against.append(rejected[version.text])
        if not against:
            source_text, version = version.text, replace(version, text=identity(version.text))
            plan.source_texts.setdefault(version.text, source_text)
            if version.text in live:
                against.append(f"has the schema of version {live[version.text]}, which is live")
        if version.number - last > MOST:
            against.append(f"has more than {MOST:,} unused numbers before it")
        if against:
            plan.trouble(SKIP, f"{name} {version.number}", ", ".join(against))
            continue
        last = version.number
        if not version.deleted:
            live[version.text] = version.number
        yield version


def copyable_level(plan: Plan, where: str, level: str | None, more: tuple[str, ...]) -> str | None:
    for member in more:
        plan.trouble(SKIP, where, f"has {member} in addition to its level")
    if level is None or level in LEVELS:
        return level
    plan.trouble(SKIP, where, f"has the level {level}")
    return None


def copyable_mode(plan: Plan, where: str, mode: str | None) -> str | None:
    if mode is None or mode in MODES:
        return mode
    plan.trouble(MODELESS, where, f"has the mode {mode}")
    return None


def copyable(plan: Plan, registry: Registry, rejected: dict[str, str]) -> Registry:
    """The part of a registry that can be copied, with identity texts."""
    subjects = {}
    for name, subject in registry.subjects.items():
        if subject.context or not is_subject(name):
            plan.trouble(SKIP, name, "is in a context" if subject.context else "is too long, or has control characters")
            continue
        versions = tuple(copyable_versions(plan, name, subject, rejected))
        if versions:
            level = copyable_level(plan, name, subject.level, subject.more)
            subjects[name] = Subject(versions, level, copyable_mode(plan, name, subject.mode))
    level = copyable_level(plan, "The registry", registry.level, registry.more) or "BACKWARD"
    return Registry(subjects, level, copyable_mode(plan, "The registry", registry.mode) or "READWRITE")


def check_twins(plan: Plan, registry: Registry):
    """Finds ids that can't be kept in any order: two ids of one schema here, or one id of two schemas."""
    texts, ids = {}, {}
    for name, version in registry.versions():
        first = ids.setdefault(version.text, version.id)
        if first != version.id:
            plan.trouble(NEW, f"{name} {version.number}", f"has the id {version.id}, and here the schema of id {first}")
        elif texts.setdefault(version.id, version.text) != version.text:
            plan.trouble(NEW, f"{name} {version.number}", f"has the id {version.id}, as another schema has")


def in_order_of_ids(registry: Registry) -> Iterator[tuple[str, Version]]:
    """All versions: each time, of the next versions of all subjects, the one with the least id. So the ids are in order, if any
    order of the versions allows this."""
    rows = {name: subject.versions for name, subject in registry.subjects.items()}
    queue = [(versions[0].id, name, 0) for name, versions in rows.items()]
    heapq.heapify(queue)
    while queue:
        _, name, at = heapq.heappop(queue)
        yield name, rows[name][at]
        if at + 1 < len(rows[name]):
            heapq.heappush(queue, (rows[name][at + 1].id, name, at + 1))


def check_ids(plan: Plan, registry: Registry, used: int):
    """Finds the ids that avroreg wouldn't assign by itself, which counts from 1 or from the used ids on."""
    given, seen = used, set()
    for name, version in in_order_of_ids(registry):
        if version.id <= used:
            what = f", which {USED} {used} uses up" if used else ""
            plan.trouble(NEW, f"{name} {version.number}", f"has the id {version.id}{what}")
        elif version.id < given and version.id not in seen:
            plan.trouble(FILL, f"{name} {version.number}", f"has the id {version.id}, and comes after id {given}")
        seen.add(version.id)
        given = max(given, version.id)
    numbers = sorted(number for number in seen if number > used)
    flag = NEW if given - used - len(numbers) > MOST else FILL
    for before, after in zip([used, *numbers], numbers):
        if after - before > 1:
            is_one = after - before == 2
            ids = f"Id {before + 1}" if is_one else f"Ids {before + 1} to {after - 1}"
            plan.trouble(flag, ids, f"no version has {'it' if is_one else 'them'}")


def renumber(registry: Registry) -> tuple[Registry, dict[int, int]]:
    """The registry with the ids that its schemas get if they are registered in the order of their old ids."""
    given, becomes = {}, {}
    for _, version in in_order_of_ids(registry):
        becomes[version.id] = given.setdefault(version.text, len(given) + 1)
    subjects = {name: replace(subject, versions=tuple(replace(it, id=given[it.text]) for it in subject.versions))
                for name, subject in registry.subjects.items()}
    return replace(registry, subjects=subjects), becomes


def placeholder(identifier: int) -> str:
    """A schema for an id that no version has."""
    return compact({"name": f"from_confluent.unused_{identifier}", "size": 0, "type": "fixed"})


def plan_versions(plan: Plan, registry: Registry, spare: str, used: int):
    """Plans all versions, and under the spare subject the schemas of ids that avroreg wouldn't assign by itself."""
    texts = {version.id: plan.source_texts.get(version.text, version.text) for _, version in registry.versions()}
    given, filled, last = used, 0, {}
    for name, version in in_order_of_ids(registry):
        if version.id > given + 1:
            plan.parts.append(FillerSteps(spare, filled, given + 1, version.id - 1, texts))
            filled += version.id - given - 1
        given = max(given, version.id)
        plan.parts.append(VersionSteps(name, last.get(name, 0), replace(version, text=texts[version.id])))
        last[name] = version.number
    if filled:
        plan.parts.append(RemovalSteps(spare, filled))
    plan.fillers = filled


def plan_settings(plan: Plan, registry: Registry):
    """Plans the levels, and then the modes, which forbid writes."""
    for name, subject in registry.subjects.items():
        if subject.level is not None:
            plan.put("config", name, "compatibility", subject.level)
    plan.put("config", "", "compatibility", registry.level)
    for name, subject in registry.subjects.items():
        if subject.mode is not None:
            plan.put("mode", name, "mode", subject.mode)
    plan.put("mode", "", "mode", registry.mode)


def plan_steps(plan: Plan, spare: str, used: int):
    """Plans the writes. The key of the first one has a hash of all of them."""
    plan_versions(plan, plan.wanted, spare, used)
    plan_settings(plan, plan.wanted)
    every = hashlib.sha256()
    for part in plan.parts:
        every.update(repr(part).encode() + b"\n")
    level = {"compatibility": "NONE"}
    plan.parts.insert(0, [Step("", 0, f"begin {every.hexdigest()}", "PUT", "/config", level, level)])


def plan_of(source: Registry, target: Server, spare: str, flags: argparse.Namespace) -> Plan:
    """The plan with its expected contents and its troubles, without its steps."""
    plan = Plan()
    registry = copyable(plan, source, rejections(target, source, spare))
    if flags.new_ids:
        registry, plan.renumbered = renumber(registry)
    else:
        check_twins(plan, registry)
        check_ids(plan, registry, flags.used_ids)
    plan.wanted = registry
    return plan


# Checks before the first write


def check_flags(plan: Plan, flags: argparse.Namespace):
    given = {SKIP: flags.skip, FILL: flags.fill_ids, NEW: flags.new_ids, MODELESS: flags.without_modes}
    for trouble in plan.troubles:
        say(f"{trouble.where}: {trouble.what}")
    missing = {trouble.flag for trouble in plan.troubles if not given[trouble.flag]}
    if NEW in missing:
        missing.discard(FILL)  # new ids need no other flag for ids
    if missing:
        options = ", ".join(f"{FILL} or {NEW}" if flag == FILL else flag for flag in sorted(missing))
        hint = unused_before(plan.wanted, flags.used_ids) if FILL in missing else ""
        raise Stop(CANNOT, f"nothing was written: this needs {options}, which --help explains{hint}")


def unused_before(registry: Registry, used: int) -> str:
    """A hint how to avoid a write for each id before the first one."""
    first = min((version.id for _, version in registry.versions()), default=1)
    if first - used <= 1000:
        return ""
    return f"; {FILL} takes {first - used - 1:,} writes for the ids before {first}. `avroreg-admin copy-from {USED} {first - 1}` uses them up first"


def print_cost(plan: Plan, target: Server):
    """Prints the number of writes, and the time that they take at 100 to 1,000 writes a second."""
    writes = len(plan)
    fillers = f", {plan.fillers:,} of them for ids that wouldn't be given otherwise" if plan.fillers else ""
    say(f"{target.url} will get {plan.wanted}, in {writes} writes{fillers}")
    if writes > 5000:
        say(f"At 100 to 1,000 writes a second this takes {clock(writes / 1000)} to {clock(writes / 100)}")


def check_retry_keys(target: Server):
    """Checks that the target knows retry keys. If so, it rejects an invalid key; otherwise it rejects the invalid level."""
    answer = target.ask("PUT", "/config", NO_LEVEL, "no key")
    if answer.code in (42203, 42205):
        raise Stop(CANNOT, f"{target.url} is no avroreg, or doesn't receive the field Registry-Retry-Key")
    if answer.code != 40001:
        raise Stop(UNREADABLE, f"{target.url}/config: {answer}")


def check_target(target: Server, plan: Plan, source: str, run: str, dry: bool):
    """Checks that the target is empty, or that this run has begun there. In that case the target knows the first key, and
    rejects another command with it."""
    if target.get("/subjects?deleted=true").parts():
        if dry:
            say(f"{target.url} isn't empty: a copy continues only in the file in which it has begun")
        elif target.ask("PUT", "/config", NO_LEVEL, next(plan.steps()).key(source, run)).code != 42290:
            raise Stop(CANNOT, f"{target.url} isn't empty, and this copy (--run {run}) hasn't begun there: use a new file")
    elif target.get("/mode").member("mode").text() != "READWRITE":
        raise Stop(CANNOT, f"{target.url} is read-only: first set its mode to READWRITE")


# Writing, and comparing


def write(target: Server, plan: Plan, source: str, run: str):
    for step in Progress("written", len(plan), "writes", 100).over(plan.steps()):
        answer = target.ask(step.method, step.path, step.body, step.key(source, run))
        if answer != Answer(200, step.wanted):
            wanted = Answer(200, step.wanted)
            raise Stop(DIFFERS, f"{step.method} {step.path}: expected {wanted}, got {answer}; use a new file")


def members(registry: Registry) -> dict[str, object]:
    """The registry's facts by name."""
    found = {"level": registry.level, "mode": registry.mode}
    for name, subject in registry.subjects.items():
        found |= {f"level of {name}": subject.level, f"mode of {name}": subject.mode}
        found |= {f"version {it.number} of {name}": it for it in subject.versions}
    return {name: value for name, value in found.items() if value is not None}


def compare(wanted: Registry, target: Server):
    wanted, found = members(wanted), members(read(target))
    differences = [name for name in sorted(wanted.keys() | found.keys()) if wanted.get(name) != found.get(name)]
    for name in differences[:20]:
        say(f"{name}: wanted {wanted.get(name)}, found {found.get(name)}")
    if differences:
        raise Stop(DIFFERS, f"{len(differences)} differences: {target.url} hasn't the expected contents")


# The arguments


class Parser(argparse.ArgumentParser):
    def error(self, message):
        self.print_usage(sys.stderr)
        self.exit(USAGE, f"{self.prog}: {message}\n")


def url(text: str) -> str:
    parts = urllib.parse.urlsplit(text)
    if parts.scheme not in ("http", "https") or not parts.hostname or parts.username or parts.query or parts.port == 0:
        raise argparse.ArgumentTypeError("a URL is http://HOST[:PORT][/PATH] or https://.., without a user")
    return text


def natural(text: str) -> int:
    if not text.isdecimal():
        raise argparse.ArgumentTypeError("it must be a number from 0 on")
    return int(text)


def parse_arguments() -> argparse.Namespace:
    parser = Parser(prog="from-confluent.py", description=__doc__, allow_abbrev=False,
                   formatter_class=argparse.RawDescriptionHelpFormatter)
    parser.add_argument("source", metavar="FROM", type=url, help="the registry to read")
    parser.add_argument("target", metavar="TO", type=url, help="the avroreg to write to")
    parser.add_argument("--dry-run", action="store_true", help="print what it would do, and write nothing")
    parser.add_argument("--patience", metavar="SECONDS", type=natural, default=PATIENCE,
                        help="how long to repeat a request that gets 429 or 5xx (%(default)s)")
    parser.add_argument("--run", metavar="NAME", default="move", help="the run's name, a part of its keys (%(default)s)")
    parser.add_argument(SKIP, action="store_true", help="leave out what avroreg doesn't accept")
    ids = parser.add_mutually_exclusive_group()
    ids.add_argument(FILL, action="store_true", help="keep ids that avroreg wouldn't assign by itself")
    ids.add_argument(NEW, action="store_true", help="give new ids")
    parser.add_argument(USED, metavar="N", type=natural, default=0, help="the ids that the file of TO has used up")
    parser.add_argument(MODELESS, action="store_true", help="leave out modes that avroreg doesn't have")
    for side, name in (("from", "FROM"), ("to", "TO")):
        parser.add_argument(f"--{side}-user", metavar="USER", help=f"the user at {name}; {name}_PASSWORD has the password")
        parser.add_argument(f"--{side}-ca", metavar="FILE", help=f"the CA certificates for {name}")
    given = parser.parse_args()
    if given.new_ids and given.used_ids:
        parser.error(f"{NEW} begins with 1, so it excludes {USED}")
    return given


def move(flags: argparse.Namespace):
    source = Server(flags.source, flags.from_user, os.environ.get("FROM_PASSWORD", ""), flags.from_ca, flags.patience)
    target = Server(flags.target, flags.to_user, os.environ.get("TO_PASSWORD", ""), flags.to_ca, flags.patience)
    check_retry_keys(target)
    registry = read_at_one_moment(source)
    say(f"{source.url} has {registry}")
    spare = spare_subject(registry)
    plan = plan_of(registry, target, spare, flags)
    check_flags(plan, flags)
    plan_steps(plan, spare, flags.used_ids)
    check_target(target, plan, source.url, flags.run, flags.dry_run)
    for old, new in sorted(plan.renumbered.items()):
        if old != new:
            say(f"id {old} becomes {new}")
    print_cost(plan, target)
    if not flags.dry_run:
        write(target, plan, source.url, flags.run)
        compare(plan.wanted, target)
        say(f"{target.url} now has {plan.wanted}, as expected")


def main():
    flags = parse_arguments()
    sys.stdout.reconfigure(errors="backslashreplace")
    try:
        move(flags)
    except Stop as stop:
        if Progress.current:
            Progress.current.end()
        sys.stdout.flush()
        print(f"from-confluent.py: {shown(stop)}", file=sys.stderr)
        sys.exit(stop.status)


if __name__ == "__main__":
    main()
