"""A second registry in Python, written only from docs/avro-registry-profile.md. It supports the trial's schemas: records of fields
of type long, with or without the default 0. It executes the log's messages, and returns each response and all tables.
"""
import json
import re
import urllib.parse
from typing import Any

LEVELS = {"BACKWARD", "BACKWARD_TRANSITIVE", "FORWARD", "FORWARD_TRANSITIVE", "FULL", "FULL_TRANSITIVE", "NONE"}
MODES = {"READWRITE", "READONLY"}
MESSAGES = {
    404: "Not found", 405: "Method not allowed", 409: "Schema is incompatible with an earlier version",
    40001: "Malformed request", 40401: "Subject not found", 40402: "Version not found", 40404: "Subject is soft-deleted",
    40405: "Subject is not soft-deleted", 40406: "Version is soft-deleted", 40407: "Version is not soft-deleted",
    42201: "Invalid schema", 42202: "Invalid version", 42203: "Invalid compatibility level", 42204: "Invalid mode",
    42205: "Operation not permitted", 42290: "Retry key was used for another request",
}  # fmt: skip
ROUTES = (
    ("PUT", re.compile(r"/(config|mode)(?:/([^/]+))?")),
    ("POST", re.compile(r"/(subjects)/([^/]+)/versions")),
    ("DELETE", re.compile(r"/(subjects)/([^/]+)(?:/versions/([^/]+))?")),
)
MEMBERS = {"config": "compatibility", "mode": "mode", "subjects": "schema"}

Reply = tuple[int, str]


def compact(value: object) -> str:
    return json.dumps(value, separators=(",", ":"), sort_keys=True, ensure_ascii=False)


def fault(code: int) -> Reply:
    return int(str(code)[:3]), compact({"error_code": code, "message": MESSAGES[code]})


def done(value: object) -> Reply:
    return 200, compact(value)


def schema_of(text: str) -> tuple[str, dict[str, bool]] | None:
    """The identity text, and for each field whether it has a default. None if the text is no schema."""
    try:
        found = json.loads(text)
        if found["type"] != "record" or any(it["type"] != "long" for it in found["fields"]):
            return None
    except (ValueError, TypeError):
        return None
    return compact(found), {it["name"]: "default" in it for it in found["fields"]}


def reads(reader: dict[str, bool], writer: dict[str, bool]) -> bool:
    return all(has_default or name in writer for name, has_default in reader.items())


class Command:
    """A write, parsed by the rules of the profile."""

    def __init__(self, message: bytes) -> None:
        head, _, body = message.partition(b"\r\n\r\n")
        lines = head.decode().split("\r\n")
        method, target, _ = lines[0].split(" ")
        fields = dict(line.split(": ", 1) for line in lines[1:])
        path, _, query = target.partition("?")
        first = dict(it.partition("=")[::2] for it in reversed(query.split("&")))
        self.method, self.key, self.is_permanent = method, fields["Registry-Retry-Key"], first.get("permanent") == "true"
        found = next((it for wanted, route in ROUTES if wanted == method and (it := route.fullmatch(path))), None)
        if not found or int(fields["Content-Length"]) != len(body):
            raise ValueError(f"no write: {message[:200]!r}")
        self.kind, subject, *version = found.groups()
        self.subject = urllib.parse.unquote(subject) if subject else None
        self.version = urllib.parse.unquote(version[0]) if version and version[0] else None
        self.value = self.member(body) if method != "DELETE" else ""

    def member(self, body: bytes) -> str | None:
        """The required string of a body, or None if the body is malformed."""
        try:
            value = json.loads(body)[MEMBERS[self.kind]]
        except (ValueError, KeyError, TypeError):
            return None
        return value if isinstance(value, str) else None

    def text(self) -> str:
        """The command text of a kept reply."""
        words: list[object]
        if self.method == "PUT" and self.subject is None:
            words = ["set-global" if self.kind == "config" else "set-global-mode", self.value]
        elif self.method == "PUT":
            words = ["set-level" if self.kind == "config" else "set-mode", self.subject, self.value]
        elif self.method == "POST":
            words = ["register", self.subject, self.value, True]
        elif self.version is not None:
            words = ["delete-version", self.subject, self.version, self.is_permanent]
        else:
            words = ["delete-subject", self.subject, self.is_permanent]
        return json.dumps(words, separators=(",", ":"), ensure_ascii=False)


class Machine:
    def __init__(self) -> None:
        self.level, self.mode = "BACKWARD", "READWRITE"
        self.levels: dict[str, str] = {}
        self.modes: dict[str, str] = {}
        self.ids: dict[str, int] = {}  # of an identity text
        self.fields: dict[int, dict[str, bool]] = {}  # of an id
        self.rows: dict[str, dict[int, tuple[int, bool]]] = {}  # id and whether it is soft-deleted, by subject and version
        self.kept: dict[str, tuple[str, int, str]] = {}
        self.evidence: dict[tuple[str, int], tuple[str, list[int]]] = {}

    def answer(self, message: bytes) -> Reply:
        """Executes a message of the log. Returns the status and the body of its response."""
        command = Command(message)
        if command.value is None:
            return fault(40001)
        if command.key in self.kept:
            text, status, body = self.kept[command.key]
            return (status, body) if text == command.text() else fault(42290)
        status, body = self.carried_out(command)
        self.kept[command.key] = (command.text(), status, body)
        return status, body

    def carried_out(self, command: Command) -> Reply:
        mode = self.modes.get(command.subject, self.mode) if command.subject is not None else self.mode
        if mode == "READONLY" and not (command.method == "PUT" and command.kind == "mode"):
            return fault(42205)
        value = command.value or ""
        if command.method == "PUT":
            return self.set(command.kind, command.subject, value)
        subject = command.subject or ""
        if command.method == "POST":
            return self.register(subject, value)
        if command.version is not None:
            return self.delete_version(subject, command.version, command.is_permanent)
        return self.delete_subject(subject, command.is_permanent)

    def set(self, kind: str, subject: str | None, value: str) -> Reply:
        if value not in (LEVELS if kind == "config" else MODES):
            return fault(42203 if kind == "config" else 42204)
        if subject is not None:
            (self.levels if kind == "config" else self.modes)[subject] = value
        elif kind == "config":
            self.level = value
        else:
            self.mode = value
        return done({MEMBERS[kind]: value})

    def live(self, subject: str) -> list[tuple[int, int]]:
        """The numbers and ids of the live versions."""
        return [(number, row[0]) for number, row in sorted(self.rows.get(subject, {}).items()) if not row[1]]

    def admits(self, level: str, named: list[int], fields: dict[str, bool]) -> bool:
        for number in named:
            earlier = self.fields[number]
            back, forth = reads(fields, earlier), reads(earlier, fields)
            if not {"BACK": back, "FORW": forth, "FULL": back and forth}[level[:4]]:
                return False
        return True

    def register(self, subject: str, text: str) -> Reply:
        found = schema_of(text)
        if not found:
            return fault(42201)
        identity, fields = found
        live = self.live(subject)
        if any(self.ids.get(identity) == number for _, number in live):
            return done({"id": self.ids[identity]})
        level = self.levels.get(subject, self.level)
        ids = [number for _, number in live]
        named = [] if level == "NONE" else ids if level.endswith("_TRANSITIVE") else ids[-1:]
        if not self.admits(level, named, fields):
            return fault(409)
        number = self.ids.setdefault(identity, len(self.ids) + 1)
        self.fields[number] = fields
        rows = self.rows.setdefault(subject, {})
        version = max(rows, default=0) + 1
        rows[version] = (number, False)
        self.evidence[subject, version] = (level, named)
        return done({"id": number})

    def delete_version(self, subject: str, word: str, is_permanent: bool) -> Reply:
        rows = self.rows.get(subject, {})
        if word != "latest" and not re.fullmatch("[1-9][0-9]*", word):
            return fault(42202)
        if not rows:
            return fault(40401)
        live = [it for it, _ in self.live(subject)]
        if word == "latest" and not is_permanent and not live:
            return fault(40404)
        version = max(rows if is_permanent else live) if word == "latest" else int(word)
        if version not in rows:
            return fault(40402)
        number, is_deleted = rows[version]
        if is_permanent and not is_deleted:
            return fault(40407)
        if not is_permanent and is_deleted:
            return fault(40406)
        if is_permanent:
            del rows[version], self.evidence[subject, version]
        else:
            rows[version] = (number, True)
        return done(version)

    def delete_subject(self, subject: str, is_permanent: bool) -> Reply:
        rows, live = self.rows.get(subject, {}), [it for it, _ in self.live(subject)]
        if not rows:
            return fault(40401)
        if is_permanent and live:
            return fault(40405)
        if not is_permanent and not live:
            return fault(40404)
        self.levels.pop(subject, None)
        if not is_permanent:
            for version in live:
                rows[version] = (rows[version][0], True)
            return done(live)
        gone = sorted(rows)
        for version in gone:
            del self.evidence[subject, version]
        del self.rows[subject]
        self.modes.pop(subject, None)
        return done(gone)

    def tables(self) -> dict[str, list[tuple[Any, ...]]]:
        """The rows of each table of the profile."""
        versions = [(s, v, row[0], int(row[1])) for s, rows in self.rows.items() for v, row in rows.items()]
        return {
            "texts": sorted((number, text) for text, number in self.ids.items()),
            "versions": sorted(versions),
            "levels": sorted(self.levels.items()),
            "modes": sorted(self.modes.items()),
            "kept": sorted((key, *it) for key, it in self.kept.items()),
            "meta": sorted({"format": "avroreg", "layout": "2", "global": self.level, "mode": self.mode}.items()),
            "evidence": sorted((s, v, level) for (s, v), (level, _) in self.evidence.items()),
            "against": sorted((s, v, at, it) for (s, v), (_, ids) in self.evidence.items() for at, it in enumerate(ids, 1)),
        }
