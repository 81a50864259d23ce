#!/usr/bin/env python3
"""Runs from-confluent.py against registries that are broken: malformed responses, endless lists, gaps of a million numbers.

    python3 examples/from-confluent/malformed.py TO

TO is a new avroreg, which stays new. Each malformed response must give one line and status 2. An endless list must end, with
smaller limits than the mover's own. No output may have a control character, and no gap may take 200 MB.
"""
import json
import os
import pathlib
import socketserver
import subprocess
import sys
import threading
import urllib.parse

MOVER = pathlib.Path(__file__).resolve().parent.parent / "from-confluent.py"
MOST_MEMORY = 200_000  # KB
SMALL = {"LONGEST_ANSWER": 1, "MOST_BYTES": 1_000_000, "MOST": 5000}  # limits for a run that must end
RUN = """
import importlib.util, json, sys
spec = importlib.util.spec_from_file_location("mover", sys.argv[1])
mover = sys.modules["mover"] = importlib.util.module_from_spec(spec)
spec.loader.exec_module(mover)
vars(mover).update(json.loads(sys.argv[2]))
del sys.argv[1:3]
mover.main()
"""
VERSION = {"subject": "s", "version": 1, "id": 1, "schema": '"int"'}
NOT_FOUND = {"error_code": 40401, "message": "not found"}
DEEP = b"[" * 100_000 + b"]" * 100_000
REGISTRY = {"/subjects": ["s"], "/config": {"compatibilityLevel": "NONE"}, "/subjects/s/versions": [1],
            "/subjects/s/versions/1": VERSION}
LISTED = {**REGISTRY, "/contexts": ["."], "/mode": {"mode": "READWRITE"}, "/schemas": lambda offset: [] if offset else [VERSION]}


def version(**members) -> dict:
    return {**VERSION, **members}


def response(value: object, status: str = "200 OK") -> bytes:
    body = value if isinstance(value, bytes) else json.dumps(value).encode()
    return f"HTTP/1.1 {status}\r\nContent-Length: {len(body)}\r\n\r\n".encode() + body


class Raw(bytes):
    """A whole response, with its head."""


def endless(head: bytes, part: bytes):
    while True:
        yield head
        head = part


class Handler(socketserver.StreamRequestHandler):
    """Answers with the values in `answers` by path: a JSON value, bytes of a body, a function of the offset, or a raw response."""
    answers: dict

    def answer(self, target: str):
        path, _, query = target.partition("?")
        if path not in self.answers:
            return [response(NOT_FOUND, "404 Not Found")]
        value = self.answers[path]
        if callable(value):
            value = value(int(urllib.parse.parse_qs(query).get("offset", ["0"])[0]))
        if isinstance(value, Raw):
            return [value]
        return value if hasattr(value, "__next__") else [response(value)]

    def handle(self):
        while line := self.rfile.readline():
            while self.rfile.readline().strip():
                pass
            try:
                for part in self.answer(line.split()[1].decode()):
                    self.wfile.write(part)
            except OSError:  # the mover has gone
                return
            if b"Content-Length" not in part:
                return


class Broken(socketserver.ThreadingTCPServer):
    daemon_threads, allow_reuse_address = True, True


class Trial:
    def __init__(self, target: str):
        self.target, self.count = target, 0
        self.server = Broken(("127.0.0.1", 0), Handler)
        self.source = f"http://127.0.0.1:{self.server.server_address[1]}"
        threading.Thread(target=self.server.serve_forever, daemon=True).start()

    def run(self, answers: dict, *options: str, limits: dict | None = None) -> tuple[int, str, str, int]:
        """The mover's status, its output, its errors, and its memory in KB."""
        Handler.answers = answers
        with subprocess.Popen([sys.executable, "-c", RUN, MOVER, json.dumps(limits or {}), "--patience", "2", *options, self.source,
                               self.target], stdout=subprocess.PIPE, stderr=subprocess.PIPE, text=True) as mover:
            timer = threading.Timer(100, mover.kill)
            timer.start()
            output, errors = mover.stdout.read(), mover.stderr.read()
            _, status, usage = os.wait4(mover.pid, 0)
            mover.returncode = os.waitstatus_to_exitcode(status)
            timer.cancel()
        for text in (output, errors):
            assert all(letter == "\n" or letter.isprintable() for letter in text), f"control characters: {text!r}"
        self.count += 1
        return mover.returncode, output, errors, usage.ru_maxrss

    def malformed(self, answers: dict, text: str = "gave a response of an unknown form", limits: dict | None = None):
        """Checks that the mover ends with status 2 and a line that has the text."""
        status, output, errors, _ = self.run(answers, "--skip", "--new-ids", "--without-modes", limits=limits)
        case = str({path: value for path, value in answers.items() if REGISTRY.get(path) != value})[:300]
        is_silent = all(", again in " in line for line in output.splitlines())
        is_one_line = is_silent and errors.startswith("from-confluent.py: ") and errors.count("\n") == 1
        assert status == 2 and is_one_line and text in errors, f"{case}: status {status} {output} {errors[-1000:]}"


def malformed_values(trial: Trial):
    """Each value in place of the right one, in a registry that lists its schemas, and in one that doesn't."""
    names = ([1], [None], {"s": 1}, None, 7, ["s\ud800"], [["s"]])
    numbers = (["1"], [None], [1.0], [True], [0], [-1], {"1": 1}, [2**31], 1)
    schemas = ([], None, *({"version": value} for value in ("1", None, 1.0, 0, -1, True, 2, 2**31)),
               *({"id": value} for value in ("1", None, 1.0, -1, True, 2**31)),
               *({"schema": value} for value in (None, 7, {}, '"int"\ud800')), {"schemaType": 7})
    for value in names:
        trial.malformed({**REGISTRY, "/subjects": value})
    for value in numbers:
        trial.malformed({**REGISTRY, "/subjects/s/versions": value})
    for value in schemas:
        value = version(**value) if isinstance(value, dict) else value
        trial.malformed({**REGISTRY, "/subjects/s/versions/1": value})
        if value != version(version=2):
            trial.malformed({**LISTED, "/schemas": lambda _, value=value: [value]})
    for value in ({}, [], None, {"compatibilityLevel": 7}):
        trial.malformed({**REGISTRY, "/config": value})
        trial.malformed({**REGISTRY, "/config/s": value})
    for value in ({}, [], None, {"mode": None}):
        trial.malformed({**LISTED, "/mode": value})
        trial.malformed({**LISTED, "/mode/s": value})
    trial.malformed({**LISTED, "/schemas": {"a": 1}})


def malformed_messages(trial: Trial):
    """Bytes that aren't JSON, or aren't HTTP."""
    for body in (DEEP, b"", b"no JSON", b'"text"', b"\xff", b'{"a":' * 100_000, b"[1" + b"0" * 5000 + b"]"):
        trial.malformed({**REGISTRY, "/subjects": body}, "/subjects?deleted=true: 200 ")
    ok = b"HTTP/1.1 200 OK\r\n"
    for head in (b"HTTP/1.1 2x0\r\n\r\n", b"\x1b[2J\r\n\r\n", b"", ok + b"Content-Length: 9\r\n\r\n[]", ok + b"A: b\r\n" * 300 + b"\r\n",
                 ok + b"Transfer-Encoding: chunked\r\n\r\nzz\r\n", ok + b"A: " + b"b" * 100_000 + b"\r\n\r\n",
                 b"HTTP/1.1 503 \x1b[2J\r\nRetry-After: Mon, 01 Jan 0001 00:00:00 -2400\r\nContent-Length: 0\r\n\r\n"):
        trial.malformed({**REGISTRY, "/subjects": Raw(head)}, "/subjects?deleted=true: ")


def endless_answers(trial: Trial):
    def numbers(offset):
        return [version(version=number) for number in range(offset + 1, offset + 1001)]

    def subjects(offset):
        return [version(subject=f"s{number}") for number in range(offset, offset + 1000)]

    head = b"HTTP/1.1 200 OK\r\n"
    trial.malformed({**LISTED, "/schemas": numbers}, "more than 5,000 versions", SMALL)
    trial.malformed({**LISTED, "/schemas": subjects}, "keeps changing", SMALL)
    trial.malformed({**REGISTRY, "/subjects": lambda _: endless(head + b"\r\n", b"[" * 65536)}, "more than 1,000,000 bytes", SMALL)
    trial.malformed({**REGISTRY, "/subjects": lambda _: endless(head + b"Transfer-Encoding: chunked\r\n\r\n", b"1\r\n[\r\n")},
                    "000 bytes", {**SMALL, "MOST_BYTES": 10_000})
    trial.malformed({**REGISTRY, "/subjects": lambda _: slow(head)}, "isn't complete after 1 s", SMALL)


def slow(head: bytes):
    yield head
    while True:
        threading.Event().wait(0.1)
        yield b"A"


def shown_escaped(trial: Trial):
    """What the mover prints of a registry has no control characters, and keeps its lines."""
    escape, path = "\x1b[2J\nx\u202e", "/subjects/" + urllib.parse.quote("\x1b[2J\nx\u202e")
    shown = r"\x1b[2J\nx\u202e"
    answers = {**REGISTRY, "/subjects": [escape, "s"], f"{path}/versions": [1], f"{path}/versions/1": version(schemaType=escape),
               "/config": {"compatibilityLevel": escape, escape: 1}, "/subjects/s/versions/1": version(schemaType=escape)}
    status, output, errors, _ = trial.run(answers, "--dry-run")
    assert status == 1 and f"s 1: schemaType {shown}\n" in output, (status, output, errors)
    assert f"{shown}: is too long, or has control characters\n" in output, output
    assert f"The registry: has the level {shown}\n" in output, output
    trial.malformed({**REGISTRY, "/subjects": Raw(response({"message": escape}, "401 No"))}, r"401 ")


def large_gaps(trial: Trial):
    """Gaps of version numbers and of ids, in a dry run."""
    def gaps(*rows):
        versions = [version(subject=f"s{at}", version=number, id=identifier) for at, (number, identifier) in enumerate(rows)]
        names = [each["subject"] for each in versions]
        return {**LISTED, "/subjects": names, "/schemas": lambda offset: [] if offset else versions}

    for options, answers, wanted in (
            ([], gaps((900_000, 1)), "in 2700001 writes"), ([], gaps(*[(1_000_000, 1)] * 5), "in 14999993 writes"),
            (["--fill-ids"], gaps((1, 1_000_000)), "in 1000005 writes, 999,999 of them for ids")):
        status, output, errors, memory = trial.run(answers, "--dry-run", *options)
        assert status == 0 and wanted in output, (status, output, errors[-1000:])
        assert memory < MOST_MEMORY, f"{memory} KB for {wanted}"
        print(f"{wanted}: {memory} KB")


def written_gap():
    """Writes a gap of a million ids to a target that gives the right responses. It runs in a process of its own."""
    code = RUN.replace("mover.main()", """
import resource
class Target:
    def ask(self, method, path, body, key):
        return mover.Answer(200, json.loads(json.dumps(self.wanted)))
target, plan, version = Target(), mover.Plan(), mover.Version(1, 1_000_000, '"int"')
registry = mover.Registry({"s": mover.Subject((version,))}, "NONE", "READWRITE")
plan.wanted = registry
mover.plan_steps(plan, "spare", 0)
steps = plan.steps
def watched():
    for step in steps():
        target.wanted = step.wanted
        yield step
plan.steps = watched
mover.write(target, plan, "source", "run")
print(resource.getrusage(resource.RUSAGE_SELF).ru_maxrss, file=sys.stderr)
""")
    done = subprocess.run([sys.executable, "-c", code, MOVER, "{}"], stdout=subprocess.PIPE, stderr=subprocess.PIPE, text=True)
    assert done.returncode == 0 and "written 1000005 of 1000005 writes" in done.stdout, done.stderr[-1000:]
    assert int(done.stderr) < MOST_MEMORY, f"{done.stderr} KB"
    print(f"written: {int(done.stderr)} KB")


def main():
    trial = Trial(sys.argv[1])
    for part in (malformed_values, malformed_messages, endless_answers, shown_escaped, large_gaps):
        part(trial)
    written_gap()
    print(f"{trial.count} broken registries: each ended as it should")


if __name__ == "__main__":
    main()
