"""The tasks that run avroreg on a file: `run`, `list`, `audit`, `migrate`. Only avroreg opens registries."""

import csv
import io
import json
import re
import subprocess
from dataclasses import dataclass

from .hands import task
from .output import ERROR, Stop

STATUS_LINE = re.compile(rb"HTTP/1\.1 (\d{3}) [^\r\n]*\r\n")
LENGTH = re.compile(rb"(?i)\r\ncontent-length: *(\d+)")
SCHEMA_CHARACTERS = 16 << 20


@dataclass(frozen=True)
class Request:
    """A request for `run`. The body is a value of JSON, or None."""

    method: str
    path: str
    body: object = None

    def encoded(self) -> bytes:
        body = b"" if self.body is None else json.dumps(self.body, ensure_ascii=False).encode()
        return f"{self.method} {self.path} HTTP/1.1\r\nHost: localhost\r\nContent-Length: {len(body)}\r\n\r\n".encode() + body


def fault_of(result: subprocess.CompletedProcess) -> str:
    """What the program printed, in one line."""
    printed = result.stderr if isinstance(result.stderr, str) else result.stderr.decode("utf-8", "replace")
    return " ".join(printed.split()) or f"status {result.returncode}"


@task
def make(program: str, database: str) -> None:
    """Makes an empty registry: one file, without a log."""
    result = subprocess.run([program, "run", "--db", database], stdin=subprocess.DEVNULL, capture_output=True)
    if result.returncode != 0:
        raise Stop(ERROR, f"avroreg made no registry {database}: {fault_of(result)}")


@task
def run(program: str, database: str, requests: list) -> list:
    """Sends requests to `avroreg run`: lists of method, path and body. Returns a list of [status, value of JSON] for each one.

    The file is opened and closed as by a server: afterwards it is one file without a log.
    """
    sent = b"".join(Request(*request).encoded() for request in requests)
    result = subprocess.run([program, "run", "--db", database], input=sent, capture_output=True)
    if result.returncode != 0:
        raise Stop(ERROR, f"avroreg run failed on {database}: {fault_of(result)}")
    responses = responses_of(result.stdout)
    if len(responses) != len(requests):
        raise Stop(ERROR, f"avroreg run sent {len(responses)} responses to {len(requests)} requests")
    return responses


def responses_of(stream: bytes) -> list:
    """The responses in a stream, each as [status, value of JSON]."""
    responses, at = [], 0
    while at < len(stream):
        status = STATUS_LINE.match(stream, at)
        end = stream.find(b"\r\n\r\n", at)
        length = LENGTH.search(stream, at, end + 2) if status and end >= 0 else None
        if length is None:
            raise Stop(ERROR, f"avroreg run sent an unexpected response: {stream[at:at + 80]!r}")
        body = stream[end + 4:end + 4 + int(length[1])]
        responses.append([int(status[1]), json.loads(body) if body else None])
        at = end + 4 + int(length[1])
    return responses


@task
def listing(program: str, database: str, what: str) -> list:
    """The rows of `avroreg list`, without the header. `what` is subjects, versions, schemas or keys."""
    result = subprocess.run([program, "list", "--db", database, what], capture_output=True, text=True, encoding="utf-8")
    if result.returncode != 0:
        raise Stop(ERROR, f"avroreg list failed on {database}: {fault_of(result)}")
    csv.field_size_limit(SCHEMA_CHARACTERS)
    return list(csv.reader(io.StringIO(result.stdout, newline="")))[1:]


@task
def audit(program: str, database: str) -> dict:
    """Audits the file: {"status": n, "text": what it printed}. Status 0: the evidence holds, 1: it doesn't, 2: it can't be read."""
    result = subprocess.run([program, "audit", "--db", database], capture_output=True, text=True, encoding="utf-8")
    return {"status": result.returncode, "text": " ".join((result.stdout + result.stderr).split())}


@task
def migrate(program: str, database: str) -> str:
    """Migrates the file to the program's layout. Returns what it printed."""
    result = subprocess.run([program, "migrate", "--db", database], capture_output=True, text=True, encoding="utf-8")
    if result.returncode != 0:
        raise Stop(ERROR, f"avroreg migrate failed on {database}: {fault_of(result)}")
    return " ".join(result.stdout.split())
