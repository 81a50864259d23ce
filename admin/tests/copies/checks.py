"""Shared code of certain.py and trial.py: a server, random writes, and the checks of a copy.

AVROREG names the program, and ADMIN the folder with the modules under test.
"""

import http.client
import json
import os
import random
import shutil
import socket
import sqlite3
import subprocess
import sys
import time
from dataclasses import dataclass
from pathlib import Path

sys.dont_write_bytecode = True
ADMIN = os.environ.get("ADMIN", str(Path(__file__).resolve().parents[2]))
sys.path.insert(0, ADMIN)

from avroreg_admin import hot_copy  # noqa: E402
from avroreg_admin.wal import log_of  # noqa: E402

PROGRAM = os.environ.get("AVROREG", "avroreg")
SAMPLE = 6
FINAL_STATUSES = (200, 404, 409, 422)


@dataclass(frozen=True)
class Write:
    """A write with its key and its reply."""

    key: str
    method: str
    path: str
    body: str | None
    status: int = 0
    reply: str = ""


def random_write(client: int, number: int, chance: random.Random, digits: int = 6000) -> Write:
    """A random write: usually a new schema with fewer than `digits` hexadecimal digits, else a deletion or a level."""
    key, subject = f"client{client}-{number}", f"s{client}-{chance.randrange(20)}"
    kind = chance.random()
    if kind < 0.75:
        doc = "%x" % chance.getrandbits(4 * chance.randrange(1, digits))
        schema = json.dumps({"type": "enum", "name": f"E{client}x{number}", "symbols": [], "doc": doc})
        return Write(key, "POST", f"/subjects/{subject}/versions", json.dumps({"schema": schema}))
    if kind < 0.9:
        return Write(key, "DELETE", f"/subjects/{subject}/versions/latest", None)
    return Write(key, "PUT", f"/config/{subject}", '{"compatibility":"NONE"}')


class Server:
    """avroreg on a file and a free port."""

    def __init__(self, file: Path):
        self.file = file
        with socket.socket() as probe:
            probe.bind(("127.0.0.1", 0))
            self.port = probe.getsockname()[1]
        self.start()

    def start(self) -> None:
        self.process = subprocess.Popen([PROGRAM, "serve", "--db", self.file, "--port", str(self.port)])
        try:
            self.wait_for_answer()
        except BaseException:
            self.kill()
            raise

    def wait_for_answer(self) -> None:
        for _ in range(6000):
            try:
                self.request("GET", "/config")
                return
            except OSError:
                if self.process.poll() is not None:
                    break
                time.sleep(0.01)
        raise RuntimeError("the server doesn't answer")

    def request(self, method: str, path: str, body: str | None = None, key: str | None = None) -> tuple[int, str]:
        """Sends a request on its own connection. Returns the status and the body of the reply."""
        connection = http.client.HTTPConnection("127.0.0.1", self.port, timeout=120)
        try:
            headers = {"Connection": "close"} | ({"Registry-Retry-Key": key} if key else {})
            connection.request(method, path, body, headers)
            answer = connection.getresponse()
            return answer.status, answer.read().decode()
        finally:
            connection.close()

    def send(self, write: Write) -> Write | None:
        """Sends a write. Returns it with its reply, or None if the reply isn't final."""
        status, reply = self.request(write.method, write.path, write.body, write.key)
        if status not in FINAL_STATUSES:
            return None
        return Write(write.key, write.method, write.path, write.body, status, reply)

    def kill(self) -> None:
        self.process.kill()
        self.process.wait()


def remove(copy: Path) -> None:
    """Removes a copy, its log, and the files that the checks made of them."""
    for file in copy.parent.glob(copy.name + "*"):
        file.unlink()


def duplicate(copy: Path, suffix: str) -> Path:
    """Duplicates the copy, since a check may change the file that it opens."""
    target = copy.with_name(copy.name + suffix)
    for end in ("", "-wal"):
        shutil.copyfile(f"{copy}{end}", f"{target}{end}")
    return target


def fault_of_audit(copy: Path) -> str:
    """The output of a failed `avroreg audit` of the copy, or an empty text."""
    audit = subprocess.run([PROGRAM, "audit", "--db", duplicate(copy, ".audit")], capture_output=True, text=True)
    return "" if audit.returncode == 0 else f"audit: status {audit.returncode}, {audit.stdout}{audit.stderr}".strip()


def versions_of(database: Path) -> list[tuple]:
    """The rows of the table `versions`."""
    connection = sqlite3.connect(database)
    try:
        return connection.execute("SELECT * FROM versions ORDER BY subject, version").fetchall()
    finally:
        connection.close()


def fault_of_rows(database: Path, writes: list[Write]) -> str:
    """Damage that sqlite3 finds, or a missing acknowledged write; else an empty text."""
    connection = sqlite3.connect(database)
    try:
        if (check := connection.execute("PRAGMA integrity_check").fetchone()[0]) != "ok":
            return f"sqlite3: {check}"
        kept = {key: (status, body) for key, status, body in connection.execute("SELECT key, status, body FROM kept")}
    except sqlite3.DatabaseError as error:
        return f"sqlite3: {error}"
    finally:
        connection.close()
    lost = [write for write in writes if kept.get(write.key) != (write.status, write.reply)]
    return f"{len(lost)} of {len(writes)} acknowledged writes are lost, the first is {lost[0].key}" if lost else ""


def fault_of_retries(copy: Path, writes: list[Write], before: list[tuple]) -> str:
    """A wrong reply to a retry at a server on the copy, or a change of the versions by the retries; else an empty text."""
    server = Server(copy)
    try:
        for write in writes[-SAMPLE:] + random.sample(writes, min(SAMPLE, len(writes))):
            reply = server.request(write.method, write.path, write.body, write.key)
            if reply != (write.status, write.reply):
                return f"{write.key} retried: {reply}, first {write.status} {write.reply}"
    finally:
        server.kill()
    return "" if versions_of(copy) == before else "a retry changed the versions"


def fault_of(copy: Path, writes: list[Write]) -> str:
    """What is wrong with a copy that must have these acknowledged writes, or an empty text. The checks change the copy."""
    rows = duplicate(copy, ".rows")
    return fault_of_audit(copy) or fault_of_rows(rows, writes) or fault_of_retries(copy, writes, versions_of(rows))
