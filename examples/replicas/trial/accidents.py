"""A node that has another file than its own, and large bodies."""
import contextlib
import http.client
import json
import pathlib
import re
import shutil
import signal
import socket
import threading
import time
import urllib.request
from typing import Iterator

from trial import front
from trial.local import Node
from trial.steps import STALE, Wrong, ask, check, schema
from trial.through_nginx import ThroughNginx

MIB = 1048576


class Accidents(ThroughNginx):
    # --- Another file than the node's

    def lost_file(self) -> None:
        """avroreg of n1 starts without its file, and then with an older one. n1 answers nothing, and the others answer its clients."""
        self.set_up()
        first, second, _ = self.nodes
        self.register(first, 2)
        self.wait_until_equal()
        self.cluster.end(signal.SIGKILL, "n1")
        old = self.put_aside(first, "old", is_kept=True)
        self.cluster.start("n1")
        self.register(first, 1)
        self.wait_until_equal()
        with self.fronts():
            self.wait_for(first.local_reads.exists, "n1's relay lets nginx read from avroreg")
            right = self.serve(first, "right", None)
            self.check_without_file(first, b"[]", 4)
            self.serve(first, "empty", old)
            self.check_without_file(first, b'["s1","s2"]', 5)
            self.serve(first, "older", right)
            self.wait_for(first.local_reads.exists, "n1 has its file again, and nginx reads from its avroreg")
        self.wait_until_equal()

    @contextlib.contextmanager
    def fronts(self) -> Iterator[None]:
        """nginx on each node."""
        found = [front.of_node(self.cluster, it) for it in self.nodes]
        try:
            for it in found:
                it.wait()
            yield
        finally:
            for it in found:
                it.stop()

    def serve(self, node: Node, name: str, folder: pathlib.Path | None) -> pathlib.Path:
        """Kills avroreg, puts its files aside, and starts it with those of a folder, or with none. Returns where its files are."""
        node.end("registry", signal.SIGKILL)
        aside = self.put_aside(node, name)
        for path in folder.iterdir() if folder else ():
            shutil.copy(path, node.database.with_name(path.name))
        node.start("registry")
        self.wait_for(lambda: self.direct(node, "/config"), f"avroreg of {node.name} serves another file")
        return aside

    def direct(self, node: Node, target: str) -> bytes:
        """What avroreg itself responds."""
        try:
            with urllib.request.urlopen(f"http://127.0.0.1:{node.ports['registry']}{target}", timeout=30) as found:
                return bytes(found.read())
        except OSError:
            return b""

    def check_without_file(self, node: Node, subjects: bytes, number: int) -> None:
        for _ in range(3):
            found = self.read("/schemas/ids/3"), self.read("/config"), self.read("/subjects/s3/versions")
            check([it[0] for it in found] == [200] * 3, f"the clients of {node.name} find the schema of id 3")
        statuses = [ask(node, "GET", target, None, **fields)[0] for target in ("/schemas/ids/3", "/subjects/x/versions") for fields in ({}, STALE)]
        check(statuses == [503] * 4, f"the relay of {node.name} answers no read: {statuses}")
        self.wait_for(lambda: "another registry" in str(node.health().get("reasons")), "its /health names the cause")
        written = self.send("POST", f"/subjects/s{number}/versions", schema(number), **{"Registry-Retry-Key": f"k{number}"})
        check((written.status, written.body) == (200, b'{"id":%d}' % number), f"a write gets the right id: {written.body!r}")
        check(not node.local_reads.exists() and self.direct(node, "/subjects") == subjects, "avroreg got no write of the log, and nginx doesn't read from it")

    # --- Large bodies

    def limits(self) -> None:
        """Malformed bodies don't reach the log, and the relay holds a limited number of bytes."""
        self.set_up()
        first = self.nodes[0]
        before = [int(it.etcd("/v3/maintenance/status", {})["dbSize"]) for it in self.nodes]
        for number in range(100):
            found = ask(first, "PUT", f"/config/m{number}", b"z" * MIB)
            if found[0] != 400:
                raise Wrong(f"a malformed body got {found}")
        grown = [int(it.etcd("/v3/maintenance/status", {})["dbSize"]) - was for it, was in zip(self.nodes, before)]
        check(max(grown) < MIB, f"100 malformed bodies of 1 MiB are rejected, and etcd grows by {grown} bytes")
        statuses = self.send_at_once(511)
        peak = self.peak(first)
        check(set(statuses) <= {200, 422, 503} and statuses.count(503) > 100, f"511 bodies of 1 MiB at once: {dict((it, statuses.count(it)) for it in set(statuses))}")
        check(peak < 400 * MIB, f"the relay had at most {peak / MIB:.0f} MiB in memory")
        self.wait_for(lambda: ask(first, "GET", "/config")[0] == 200, "it goes on")
        self.register(first, 1)
        self.wait_until_equal()

    def peak(self, node: Node) -> int:
        found = re.search("VmHWM:\\s+([0-9]+) kB", pathlib.Path(f"/proc/{node.process('relay')}/status").read_text())
        return int(found[1]) * 1024 if found else 0

    def send_at_once(self, count: int) -> list[int]:
        """Sends lookups and writes with bodies of 1 MiB at once. Returns their statuses. Each 503 has Retry-After, or a key."""
        padding = "x" * (MIB - 200)
        lookup, write = ({"schema": padding}, {"compatibility": "NONE", "padding": padding})
        statuses: list[int] = []
        ready = threading.Barrier(count)

        def send(number: int) -> None:
            method, target, document = ("PUT", f"/config/b{number}", write) if number % 16 == 0 else ("POST", "/subjects/s1", lookup)
            body = json.dumps(document).encode()
            try:
                with socket.create_connection(("127.0.0.1", self.nodes[0].ports["relay"]), timeout=120) as connection:
                    head = f"{method} {target} HTTP/1.1\r\nHost: h\r\nConnection: close\r\nContent-Length: {len(body)}\r\n\r\n"
                    ready.wait()
                    connection.sendall(head.encode() + body[:-1])
                    time.sleep(5)
                    connection.sendall(body[-1:])
                    statuses.append(self.status_of(connection))
            except ConnectionError:
                statuses.append(503)  # refused and closed before the body was sent

        threads = [threading.Thread(target=send, args=(it,)) for it in range(count)]
        for it in threads:
            it.start()
        for it in threads:
            it.join()
        return statuses

    def status_of(self, connection: socket.socket) -> int:
        found = http.client.HTTPResponse(connection)
        found.begin()
        if found.status == 503 and not (found.headers["Retry-After"] or found.headers["Registry-Retry-Key"]):
            raise Wrong(f"a refusal without Retry-After: {found.read()!r}")
        return found.status
