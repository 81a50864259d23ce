"""Clients that use the nginx of three nodes, with the repository's nginx.conf."""
import base64
import contextlib
import http.client
import json
import os
import re
import signal
import ssl
import statistics
import time
import urllib.request
from typing import Iterator, NamedTuple

from trial import front
from trial.local import Node
from trial.steps import FAULTS, LocalTrial, Wrong, ask, check, schema


FRESH = {"Cache-Control": "no-cache"}


@contextlib.contextmanager
def hanging(node: Node, service: str) -> Iterator[None]:
    """A service of a node hangs."""
    process = node.process(service)
    assert process
    os.kill(process, signal.SIGSTOP)
    try:
        yield
    finally:
        os.kill(process, signal.SIGCONT)


class Found(NamedTuple):
    status: int
    key: str
    body: bytes


class ThroughNginx(LocalTrial):
    def clients(self) -> None:
        """Tests clients of nginx, which reads from its own avroreg, and uses another node if its own one doesn't answer."""
        self.set_up()
        fronts = [front.of_node(self.cluster, it) for it in self.nodes]
        try:
            for it in fronts:
                it.wait()
            self.check_certificates()
            self.check_users()
            self.check_local_reads()
            self.check_another_node()
            self.check_hanging_relay()
            self.check_old_node()
            self.check_own_writes()
            self.check_two_nodes_down()
            self.check_stopped_node()
        finally:
            for it in fronts:
                it.stop()
        self.wait_until_equal()

    def send(self, method: str, target: str, body: bytes | None = None, user: str = ":".join(front.USER), **fields: str) -> Found:
        """Sends a request to n1's nginx, and returns the response."""
        connection = front.connection(self.nodes[0].ports["https"], self.cluster.folder / "tls" / "ca.crt")
        authorization = {"Authorization": "Basic " + base64.b64encode(user.encode()).decode()} if user else {}
        connection.request(method, target, body, {**authorization, **fields})
        response = connection.getresponse()
        found = Found(response.status, response.headers.get("Registry-Retry-Key", ""), response.read())
        connection.close()
        return found

    def read(self, target: str, **fields: str) -> tuple[int, bytes]:
        found = self.send("GET", target, **fields)
        return found.status, found.body

    def check_certificates(self) -> None:
        """Checks that nginx and etcd of a node answer only nodes that have a certificate of the cluster."""
        second = self.nodes[1]
        for service, port, target in (("nginx", "nodes", "/subjects"), ("etcd", "peer", "/version")):
            found = [self.status_for_a_node(second, port, target, has_certificate) for has_certificate in (True, False)]
            check(found[0] == 200 and found[1] in (0, 400), f"{service} of n2 answers a node with a certificate, and none without")

    def status_for_a_node(self, node: Node, port: str, target: str, has_certificate: bool) -> int:
        """The status of a request from n1, with or without its certificate. 0 if it gets no response."""
        tls = self.cluster.folder / "tls"
        connection = front.connection(node.ports[port], tls / "ca.crt", (tls / "n1.crt", tls / "n1.key") if has_certificate else None)
        try:
            connection.request("GET", target)
            return connection.getresponse().status
        except (ssl.SSLError, *FAULTS):
            return 0
        finally:
            connection.close()

    def check_users(self) -> None:
        statuses = [self.send("GET", "/subjects", user=user).status for user in ("", "producer:guess")]
        check(statuses == [401, 401], "without the right password: 401")
        status, key, _ = self.send("POST", "/subjects/a/versions", schema(1))
        check(status == 200 and re.fullmatch("[0-9a-f]{32}", key), f"a write without a key gets one: {key}")
        status, key, _ = self.send("POST", "/subjects/a/versions", schema(1), **{"Registry-Retry-Key": "mine"})
        check((status, key) == (200, "mine"), "a write with a key keeps its key")
        foreign = [
            self.send(method, "/config", b'{"compatibility":"NONE"}', Origin="http://elsewhere").status for method in ("PUT", "GET")
        ]
        check(foreign == [403, 200], "another site's page can't write")

    def reads_of_relay(self) -> int:
        """How many reads n1's relay has answered, without fresh reads."""
        with urllib.request.urlopen(f"http://127.0.0.1:{self.nodes[0].ports['admin']}/metrics", timeout=30) as found:
            count = re.search(r'avroreg_relay_seconds_count\{kind="read"\} ([0-9]+)', found.read().decode())
        return int(count[1]) if count else 0

    def timed_read(self, target: str) -> tuple[float, tuple[int, bytes]]:
        began = time.monotonic()
        found = self.read(target)
        return time.monotonic() - began, found

    def check_local_reads(self) -> None:
        """nginx reads from n1's avroreg directly. The relay answers fresh reads, and reads for which avroreg returns 404."""
        self.wait_for(self.nodes[0].local_reads.exists, "n1's relay lets nginx read from avroreg")
        before, first, second = self.reads_of_relay(), list[float](), list[float]()
        for number in range(20):
            written = self.send("POST", f"/subjects/l{number}/versions", schema(10 + number))
            if written.status != 200:
                raise Wrong(f"a write at n1 got {written}")
            seconds, by_id = self.timed_read(f"/schemas/ids/{json.loads(written.body)['id']}")
            first.append(seconds)
            seconds, versions = self.timed_read(f"/subjects/l{number}/versions")
            second.append(seconds)
            if by_id[0] != 200 or versions != (200, b"[1]"):
                raise Wrong(f"a read at n1 lacks a write that n1 acknowledged: {by_id}, {versions}")
        check(True, "a read at n1 has each write that n1 acknowledged")
        check(self.reads_of_relay() == before, "n1's relay got none of these reads")
        halves = statistics.median(first), statistics.median(second)
        check(halves[0] < halves[1] + 0.15, f"a read after a write isn't slower: {halves[0] * 1000:.0f} ms, otherwise {halves[1] * 1000:.0f} ms")
        check(self.send("POST", "/subjects/a%2Fb/versions", schema(1)).status == 200, "a subject with an escape is registered")
        check(self.read("/subjects/a%2Fb/versions") == (200, b"[1]"), "its versions are read")
        unknown = [self.read(target)[0] for target in ("/subjects/a%2Fc/versions", "/schemas/ids/999")]
        check(unknown == [404, 404], f"an unknown subject and an unknown id get {unknown}")
        for value in ("no-cache", "max-age=0, No-Cache", "max-age=0"):
            check(self.read("/subjects/a/versions", **{"Cache-Control": value}) == (200, b"[1]"), f"a read with {value}")
        check(self.send("POST", "/subjects/a", schema(1)).status == 200, "a lookup with a body")
        check(self.send("HEAD", "/subjects").status == 405, "avroreg doesn't support HEAD")

    def check_another_node(self) -> None:
        first = self.nodes[0]
        first.end("relay", signal.SIGKILL)
        check(self.send("POST", "/subjects/b/versions", schema(2)).status == 200, "n1's relay is killed, and another node accepts a write")
        check(self.read("/subjects/b/versions") == (200, b"[1]"), "another node answers a read of a subject that n1 doesn't have")
        check(self.read("/subjects/a/versions", **FRESH) == (200, b"[1]"), "another node answers a fresh read")
        self.cluster.start("n1", "relay")
        self.wait_until_equal()
        first.end("registry", signal.SIGKILL)
        check(self.read("/subjects/a/versions") == (200, b"[1]"), "n1's avroreg is killed, and another node answers a read")
        self.cluster.start("n1", "registry")

    def check_hanging_relay(self) -> None:
        """n1's relay hangs. On a real node, systemd kills it."""
        first, second = self.nodes[:2]
        self.wait_for(first.local_reads.exists, "n1's relay lets nginx read from avroreg")
        with hanging(first, "relay"):
            check(self.register_at(second, "b", 6) == 200, "n1's relay hangs, and n2 accepts a write")
            check(self.read("/subjects/b/versions", **FRESH) == (200, b"[1,2]"), "a fresh read at n1 has a write of n2")
        self.wait_until_equal()

    def check_old_node(self) -> None:
        """n1's etcd hangs, so n1 gets no writes of the other nodes."""
        first, second = self.nodes[:2]
        self.wait_for(first.local_reads.exists, "n1's relay lets nginx read from avroreg")
        with hanging(first, "etcd"):
            self.wait_for(lambda: not first.local_reads.exists(), "n1's etcd hangs, so nginx doesn't read from n1's avroreg")
            check(self.send("POST", "/subjects/c/versions", schema(3)).status == 200, "n1's etcd hangs, and another node accepts a write")
            check(self.register_at(second, "a", 4) == 200, "n2 accepts another write")
            seconds, found = self.timed_read("/subjects/a/versions")
            check(found == (200, b"[1,2]") and seconds < 3, f"a read at n1 has these writes, after {seconds:.1f} s")
            check(self.read("/subjects/a/versions", **FRESH) == (200, b"[1,2]"), "a fresh read at n1 has them")
            check(self.read("/subjects/c/versions") == (200, b"[1]"), "n1 finds a subject that another node acknowledged")
        check(ask(second, "GET", "/subjects/c/versions") == (200, b"[1]"), "the write of that subject is applied exactly once")
        self.wait_until_equal()

    def check_own_writes(self) -> None:
        """n1's etcd is killed, so another node acknowledges the writes of n1's clients. They see their writes at n1, also afterwards."""
        first = self.nodes[0]
        self.wait_for(first.local_reads.exists, "n1's relay lets nginx read from avroreg")
        first.end("etcd", signal.SIGKILL)
        for level in ("FULL", "NONE", "BACKWARD"):
            written = self.send("PUT", "/config", b'{"compatibility":"%s"}' % level.encode())
            found = [self.read("/config") for _ in range(3)]
            wanted = b'{"compatibilityLevel":"%s"}' % level.encode()
            check(written.status == 200 and found == [(200, wanted)] * 3, f"n1's etcd is killed, and its clients see their write {level}")
        first.end("relay", signal.SIGKILL)
        written = self.send("PUT", "/config/own", b'{"compatibility":"FULL"}')
        self.cluster.start("n1", "etcd")
        first.start("relay")
        while not first.local_reads.exists():
            found = [self.read("/config/own")]
            if written.status != 200 or found != [(200, b'{"compatibilityLevel":"FULL"}')]:
                raise Wrong(f"n1 starts again, and its clients don't see their write: {written}, {found}")
        check(self.read("/config/own") == (200, b'{"compatibilityLevel":"FULL"}'), "n1 starts again, and its clients see their writes all the time")
        self.wait_until_equal()

    def check_two_nodes_down(self) -> None:
        """Without a majority, a write gets its key also from nginx's own errors, and n1 answers reads alone."""
        others = [(node, service) for node in self.nodes[1:] for service in ("etcd", "relay")]
        for node, service in others:
            node.end(service, signal.SIGKILL)
        found = self.send("POST", "/subjects/unsure/versions", schema(77))
        check(found.status in (502, 503, 504) and re.fullmatch("[0-9a-f]{32}", found.key), f"a write gets {found.status} with its key {found.key}")
        lookup = self.send("POST", "/subjects/a", schema(1))
        check(lookup.status in (502, 503, 504), f"a lookup with a body gets {lookup.status}")
        seconds, reading = self.timed_read("/subjects/a/versions")
        check(reading == (200, b"[1,2]") and seconds < 5, f"n1 answers a read, after {seconds:.1f} s")
        fresh = self.send("GET", "/subjects/a/versions", **FRESH)
        check((fresh.status in (502, 503, 504), fresh.key) == (True, ""), f"a fresh read gets {fresh.status}, without a key")
        check(self.read("/subjects/none/versions")[0] in (502, 503, 504), "an unknown subject gets no 404")
        for node, service in others:
            node.start(service)
        self.wait_for(lambda: all(it.is_up("relay") for it in self.nodes), "the other nodes run again")
        self.wait_until_equal()
        retried = self.send("POST", "/subjects/unsure/versions", schema(77), **{"Registry-Retry-Key": found.key})
        check((retried.status, self.read("/subjects/unsure/versions")) == (200, (200, b"[1]")), "its retry is applied exactly once")

    def register_at(self, node: Node, subject: str, number: int) -> int:
        for _ in range(50):
            status, _ = ask(node, "POST", f"/subjects/{subject}/versions", schema(number), **{"Registry-Retry-Key": f"at-{number}"})
            if status == 200:
                break
        return status

    def check_stopped_node(self) -> None:
        """Somebody writes to n1's avroreg past the log. Once n1 has stopped, no client sees that write."""
        first, second = self.nodes[:2]
        direct = http.client.HTTPConnection("127.0.0.1", first.ports["registry"], timeout=60)
        direct.request("POST", "/subjects/past/versions", schema(9999))
        check(direct.getresponse().status == 200, "a schema is registered at n1's avroreg itself")
        direct.close()
        check(self.register_at(second, "d", 5) == 200, "n2 accepts a write")
        self.wait_for(lambda: first.health().get("status") == "stopped", "n1 stops")
        subjects = self.read("/subjects")
        check(subjects[0] == 200 and b'"d"' in subjects[1] and b'"past"' not in subjects[1], "another node answers a read of the subjects")
        check(self.read("/subjects/past/versions")[0] == 404, "the write past the log isn't found")
        backup = self.folder / "for-n1"
        self.command(second, "backup", backup)
        self.command(first, "restore", backup)
        self.wait_for(first.local_reads.exists, "n1 is rebuilt, and its relay lets nginx read from avroreg")
        check(b'"past"' not in self.read("/subjects")[1], "its avroreg lacks the write past the log")
