"""Shared code of the trials on loopback: three nodes, requests, registrations, comparisons."""
import http.client
import json
import pathlib
import shutil
import signal
import subprocess
import sys
import time
import urllib.error
import urllib.request
from typing import Callable

from trial.local import HERE, SECONDS, Cluster, Node

FAULTS = (OSError, http.client.HTTPException)
STALE = {"Cache-Control": "max-stale"}  # of a read that may be as old as the node


class Wrong(Exception):
    """A check of an operation failed."""


def check(condition: object, text: str) -> None:
    if not condition:
        raise Wrong(text)
    print(f"  ok: {text}", flush=True)


def schema(number: int) -> bytes:
    record = {"type": "record", "name": "R", "doc": f"number {number}", "fields": []}
    return json.dumps({"schema": json.dumps(record)}).encode()


def ask(node: Node, method: str, target: str, body: bytes | None = None, **fields: str) -> tuple[int, bytes]:
    request = urllib.request.Request(node.url + target, body, fields, method=method)
    try:
        with urllib.request.urlopen(request, timeout=60) as found:
            return found.status, found.read()
    except urllib.error.HTTPError as fault:
        return fault.code, fault.read()


def mode(path: pathlib.Path) -> int:
    return path.stat().st_mode & 0o777


def end_on_sigterm() -> None:
    """Makes SIGTERM raise an exception, so that the program also kills its nodes."""
    signal.signal(signal.SIGTERM, lambda *_: sys.exit("ended by a signal"))


class LocalTrial:
    def __init__(self, folder: pathlib.Path, program: pathlib.Path, relay: pathlib.Path = HERE / "avroreg-relay") -> None:
        self.folder, self.program, self.relay = folder, program, relay
        self.cluster = Cluster(folder / "cluster")
        self.count = 0

    @property
    def nodes(self) -> list[Node]:
        return list(self.cluster.nodes.values())

    def set_up(self, quota: int = 0) -> None:
        """Sets up three new nodes, and starts them."""
        self.tear_down()
        shutil.rmtree(self.cluster.folder, ignore_errors=True)
        self.cluster, self.count = Cluster(self.folder / "cluster"), 0
        self.cluster.quota = quota
        for node in self.nodes:
            node.relay = self.relay
        self.cluster.new(self.program)
        self.cluster.start()
        self.wait_for(lambda: all(it.health().get("status") == "ok" for it in self.nodes), "three nodes are healthy")

    def tear_down(self) -> None:
        if (self.cluster.folder / "n1").exists():
            self.cluster.end(signal.SIGKILL)

    def files(self, node: Node) -> list[pathlib.Path]:
        return [node.database, node.database.with_name("registry.db-wal")]

    def put_aside(self, node: Node, name: str, is_kept: bool = False) -> pathlib.Path:
        """Moves or copies the database of a node whose avroreg doesn't run."""
        folder = self.folder / name
        folder.mkdir()
        for path in filter(pathlib.Path.exists, self.files(node)):
            (shutil.copy if is_kept else shutil.move)(path, folder / path.name)
        return folder

    def command(self, node: Node, *arguments: object, fails: bool = False) -> str:
        done = subprocess.run(
            [sys.executable, str(HERE / "avroreg-cluster"), "--config", str(node.config), *map(str, arguments)], capture_output=True, text=True
        )
        if bool(done.returncode) != fails:
            raise Wrong(f"avroreg-cluster {' '.join(map(str, arguments))} ended with {done.returncode}: {done.stdout}{done.stderr}")
        return done.stdout + done.stderr

    def register(self, node: Node, count: int) -> list[int]:
        """Registers `count` schemas, each in its own subject. Returns their ids."""
        ids = []
        for _ in range(count):
            self.count += 1
            until = time.monotonic() + SECONDS
            while True:
                status, body = ask(node, "POST", f"/subjects/s{self.count}/versions", schema(self.count), **{"Registry-Retry-Key": f"k{self.count}"})
                if status == 200:
                    break
                if status != 503 or time.monotonic() > until:
                    raise Wrong(f"a registration got {status}: {body!r}")
                time.sleep(0.2)
            ids.append(int(json.loads(body)["id"]))
        return ids

    def wait_until_equal(self, *nodes: Node) -> None:
        """Waits until the nodes are at one revision and have saved it. Checks that they have one digest and one fingerprint."""
        nodes = nodes or tuple(self.nodes)
        until = time.monotonic() + SECONDS
        while True:
            found = [it.health() for it in nodes]
            if len({(it.get("revision"), it.get("saved")) for it in found}) == 1 and found[0].get("status") == "ok":
                break
            if time.monotonic() > until:
                raise Wrong(f"the nodes don't reach one revision: {found}")
            time.sleep(0.2)
        check(len({it["digest"] for it in found}) == 1, f"{len(nodes)} nodes at revision {found[0]['revision']} with one digest")
        prints = {self.command(it, "fingerprint") for it in nodes}
        check(len(prints) == 1, f"they have one fingerprint: {prints.pop().split()[1]}")

    def wait_for(self, condition: Callable[[], object], text: str) -> None:
        until = time.monotonic() + SECONDS
        while not condition():
            if time.monotonic() > until:
                raise Wrong(text)
            time.sleep(0.1)
        check(True, text)
