"""The contents of the nodes, and the expected contents by two folds of the log."""
import base64
import collections
import json
import os
import pathlib
import re
import shutil
import sqlite3
import subprocess
import sys
import tempfile
from typing import Any, Iterator

from trial.clients import Write
from trial.local import HERE
from trial.machine import Command, Machine, fault
from trial.spaces import SpaceNode

TABLES = {
    "texts": "*", "versions": "*", "levels": "*", "modes": "*", "kept": "*", "meta": "*", "evidence": "subject, version, level",
    "against": "subject, version, position, id",
}  # fmt: skip
DUMP = """
import asyncio, base64, json, pathlib, sys
sys.path.insert(0, sys.argv[1])
from relay import messages
from relay.etcd import Etcd
from relay.log import Log

async def dump(upto):
    async for entry in Log(Etcd(pathlib.Path(sys.argv[3]))).entries(0):
        for message in messages.split(entry.batch):
            print(json.dumps([entry.revision, base64.b64encode(message).decode()]))
        if entry.revision >= upto:
            return

asyncio.run(dump(int(sys.argv[2])))
"""

Rows = dict[str, list[tuple[Any, ...]]]


def dump(node: SpaceNode, upto: int) -> list[tuple[int, bytes]]:
    """The messages of the log up to a revision, from a node's etcd."""
    lines = node.inside(sys.executable, "-c", DUMP, str(HERE), str(upto), str(node.etcd_socket), seconds=1800).splitlines()
    return [(revision, base64.b64decode(text)) for revision, text in map(json.loads, lines)]


def rows(node: SpaceNode, program: pathlib.Path) -> tuple[Rows, str]:
    """The rows of a node's tables and the verdict of an audit, from copies. The node's services are stopped."""
    with tempfile.TemporaryDirectory() as folder:
        for suffix in ("", "-wal"):
            source = node.database.with_name(node.database.name + suffix)
            if source.exists():
                shutil.copy(source, os.path.join(folder, "F" + suffix))
        audit = subprocess.run([program, "audit", "--db", f"{folder}/F"], capture_output=True, text=True)
        connection = sqlite3.connect(f"{folder}/F")
        try:
            found = {name: sorted(connection.execute(f"SELECT {columns} FROM {name}")) for name, columns in TABLES.items()}
        finally:
            connection.close()
        return found, (audit.stdout + audit.stderr).strip()


def responses_of(output: bytes) -> Iterator[tuple[int, str]]:
    """The status and the body of each response of `avroreg run`."""
    start = 0
    while start < len(output):
        body = output.index(b"\r\n\r\n", start) + 4
        length = re.search(rb"Content-Length: ([0-9]+)", output[start:body])
        assert length
        end = body + int(length[1])
        yield int(output[start + 9 : start + 12]), output[body:end].decode()
        start = end


def output_of_run(messages: list[bytes], program: pathlib.Path) -> bytes:
    """The output of `avroreg run`, with a file in /dev/shm: without a file it is slow for many versions."""
    with tempfile.TemporaryDirectory(dir="/dev/shm") as folder:
        return subprocess.run([program, "run", "--db", f"{folder}/F"], input=b"".join(messages), capture_output=True).stdout


def out_of_order(messages: list[bytes], writes: list[Write]) -> int:
    """How many writes are in the log after a write that began after their acknowledgment."""
    places: dict[bytes, int] = {}
    for at, message in enumerate(messages):
        places.setdefault(message, at)
    found, latest = 0, 0.0
    for write in sorted((it for it in writes if it.message() in places), key=lambda it: places[it.message()]):
        found += write.answered < latest
        latest = max(latest, write.began)
    return found


def is_malformed(message: bytes) -> bool:
    return Command(message).value is None


class Fold:
    """The log, folded by the machine in Python and by `avroreg run`."""

    def __init__(self, log: list[tuple[int, bytes]], program: pathlib.Path) -> None:
        self.log, self.machine = log, Machine()
        self.responses: dict[bytes, set[tuple[int, str]]] = collections.defaultdict(set)
        replies = []
        for _, message in log:
            replies.append(self.machine.answer(message))
            self.responses[message].add(replies[-1])
        found = list(responses_of(output_of_run([message for _, message in log], program)))
        self.differing = [
            (revision, message, mine, its) for (revision, message), mine, its in zip(log, replies, found) if mine != its
        ]
        self.is_whole = len(found) == len(log)

    def expected(self, write: Write) -> set[tuple[int, str]]:
        """The responses to a write. The relay rejects malformed ones, which aren't in the log."""
        message = write.message()
        return {fault(40001)} if is_malformed(message) else self.responses.get(message, set())

    def malformed(self) -> int:
        """How many messages of the log are malformed."""
        return sum(is_malformed(message) for _, message in self.log)

    def lost(self, writes: list[Write]) -> list[Write]:
        """The acknowledged writes that aren't in the log."""
        return [it for it in writes if not self.expected(it)]

    def wrong_responses(self, writes: list[Write]) -> list[tuple[Write, int, str]]:
        """The responses to clients that the fold of the log doesn't give."""
        return [
            (write, status, body.decode())
            for write in writes
            for status, body in write.responses
            if (status, body.decode()) not in self.expected(write)
        ]

    def repeats(self) -> int:
        """How many messages of the log are repeats of an earlier one."""
        return len(self.log) - len(self.responses)
