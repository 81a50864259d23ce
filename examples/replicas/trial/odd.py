#!/usr/bin/env python3
"""Odd requests to one relay of three: unknown methods, odd targets, invalid keys, heads that two parsers read differently.

    odd.py PROGRAM [--count N] [--seed N] [--relay FILE]

n1 gets all of them, and n2 and n3 only the entries of the log. So the nodes are equal exactly if no request was applied past
the log. If two parsers could find different ends of a request, it hides a write, which must not be executed. avroreg itself
must reject each kind of write with the key that the relay sends with requests outside the log. Writes with malformed bodies
aren't in the log, and get the response of an avroreg alone. The status is 0 if all checks succeed.
"""
import argparse
import collections
import http.client
import itertools
import json
import pathlib
import random
import re
import shutil
import signal
import socket
import subprocess
import sys
import tempfile

HERE = pathlib.Path(__file__).resolve().parent.parent
sys.path.insert(0, str(HERE))

from relay.messages import NO_KEY  # noqa: E402
from trial import bodies  # noqa: E402
from trial.local import Node, free_ports  # noqa: E402
from trial.steps import LocalTrial, Wrong, ask, check, end_on_sigterm, schema  # noqa: E402

METHODS = ("PUT", "POST", "DELETE", "GET", "PATCH", "put", "Post", "HEAD", "OPTIONS", "TRACE", "CONNECT", "DELETE ", "\tPUT", "X-PUT", "PU\0T")
TARGETS = (
    "/config", "/config/s", "/mode", "/mode/s", "/subjects/s/versions", "/subjects/s/versions/1", "/subjects/s", "/subjects/s?permanent=true",
    "/config/", "//config", "/./config", "/../config", "/config/s/", "/config%2Fs", "/%63onfig", "/config/s%00", "/config/%2e%2e", "/config/s#f",
    "/config?", "/config/s?x=/y", "/config;x", "http://h/config", "*", "h:80", "/CONFIG", "/subjects//versions", "/subjects/s/versions/",
    "/subjects/s%2Fversions", "/subjects/%ff/versions", "/subjects/s/versions HTTP/1.1\r\nHost: h\r\n\r\nDELETE /subjects/s", "/config\\s",
    "/subjects/" + "s" * 300 + "/versions", "/config/" + "s" * 16200, "/subjects/s/versions/latest?permanent=true&permanent=false",
)  # fmt: skip
KEYS = ("", "k1", "k2", "?", "a b", "\xff", "k" * 65, "k1\r\nRegistry-Retry-Key: k2", " k3 ", "k4\r\n\tk5", "k6\0", "k7\nX: y")
HIDDEN = 'PUT /config/SUBJECT HTTP/1.1\r\nHost: h\r\nRegistry-Retry-Key: sNUMBER\r\nContent-Length: 24\r\n\r\n{"compatibility":"NONE"}'
CLEAR = (
    "Content-Length: {length}", "Content-Length: 0", "Content-Length: 0{length}", "content-length:{length}\r\nExpect: 100-continue",
    "Connection: close, Content-Length",
)  # fmt: skip
AMBIGUOUS = (
    "Content-Length: {length}\r\nContent-Length: 0", "Content-Length: 0\r\nContent-Length: {length}", "Content-Length: 0\r\nContent-Length: 0",
    "Content-Length: 0, {length}", "Content-Length: {length}, {length}", "Content-Length: +{length}", "Content-Length: -0", "Content-Length: 0x0",
    "Content-Length: {length} 0", "Content-Length:", "Content-Length: 00000000000000000000", "Content-Length : {length}", " Content-Length: {length}",
    "X: y\r\n Content-Length: {length}", "X: y\r\n\tContent-Length: {length}", "Content-Length:\x0b{length}", "Content-Length: \x00{length}",
    "X: y\rContent-Length: {length}", "X: y\nContent-Length: {length}", "X: y\n\r\nContent-Length: {length}", "Content-Length\x00: {length}",
    "Transfer-Encoding: chunked", "Transfer-Encoding: xchunked", "Transfer-Encoding: identity", "Transfer-Encoding: chunked, identity",
    "transfer-encoding:\tchunked", "Transfer-Encoding:", "Content-Length: {length}\r\nTransfer-Encoding: chunked",
    "Content-Length: 0\r\nTransfer-Encoding: chunked", "Transfer-Encoding: chunked\r\nContent-Length: {length}", "Transfer-Encoding : chunked",
    " Transfer-Encoding: chunked", "X: y\r\n\tTransfer-Encoding: chunked", "Transfer-Encoding\x0b: chunked",
)  # fmt: skip
# Each kind of write. In this order each one changes something, and the last one makes the registry writable again.
WRITES = (
    ("PUT", "/config", b'{"compatibility":"FULL"}'), ("PUT", "/config/s1", b'{"compatibility":"FULL_TRANSITIVE"}'),
    ("POST", "/subjects/s1/versions", schema(7777)), ("DELETE", "/subjects/s1/versions/1", b""),
    ("DELETE", "/subjects/s1/versions/1?permanent=true", b""), ("DELETE", "/subjects/s1/versions/latest", b""), ("DELETE", "/subjects/s2", b""),
    ("DELETE", "/subjects/s2?permanent=true", b""), ("PUT", "/mode/s1", b'{"mode":"READONLY"}'), ("PUT", "/mode", b'{"mode":"READONLY"}'),
    ("PUT", "/mode", b'{"mode":"READWRITE"}'),
)  # fmt: skip


def hidden(subject: str, number: int) -> str:
    """A write to hide in the body of another request."""
    return HIDDEN.replace("SUBJECT", subject).replace("NUMBER", str(number))


def request(pick: random.Random, number: int) -> bytes:
    """A request whose parts may be odd. Its body is that of a write, or hides a write."""

    def part(usual: tuple[str, ...], odd: tuple[str, ...]) -> str:
        return pick.choice(usual if pick.random() < 0.7 else odd)

    record = json.dumps({"type": "record", "name": "R", "doc": f"odd {number}", "fields": []})
    write = hidden("odd", number)
    body = part(
        (json.dumps({"schema": record, "compatibility": "NONE", "mode": "READWRITE"}),),
        (write, "0\r\n\r\n" + write, f"{len(write):x}\r\n{write}\r\n0\r\n\r\n", ""),
    )
    method, target, version = part(METHODS[:4], METHODS), part(TARGETS[:8], TARGETS), part(("HTTP/1.1",), ("HTTP/1.0", "HTTP/2", "http/1.1", ""))
    key, framing = part((f"r{number}",), KEYS), part(CLEAR[:1], CLEAR + AMBIGUOUS).replace("{length}", str(len(body)))
    lines = [f"{method} {target} {version}", "Host: h", *([f"Registry-Retry-Key: {key}"] if key else []), framing]
    return ("\r\n".join(lines) + "\r\n\r\n" + body).encode("latin-1")


def responses_to(node: Node, message: bytes) -> bytes:
    """Sends these bytes and closes the client's side. Returns all that the relay sends."""
    with socket.create_connection((node.host, node.ports["relay"]), timeout=60) as connection:
        connection.sendall(message)
        connection.shutdown(socket.SHUT_WR)
        found = b""
        try:
            while part := connection.recv(65536):
                found += part
        except ConnectionError:
            pass
        return found


def statuses_of(responses: bytes) -> list[int]:
    return [int(it) for it in re.findall(rb"HTTP/1\.1 ([0-9]{3}) ", responses)]


class Odd(LocalTrial):
    alone: "subprocess.Popen[bytes] | None" = None

    def check_ambiguous(self) -> None:
        """Checks that each request that two parsers could read differently gets one error, and that its hidden write isn't executed."""
        heads = (
            "POST /subjects/s1/versions HTTP/1.1", "GET /config HTTP/1.1", "PUT /config HTTP/1.0", "PUT /config HTTP/1.1\r\nConnection: keep-alive",
        )  # fmt: skip
        count = 0
        for head, framing in itertools.product(heads, AMBIGUOUS):
            count += 1
            write = hidden("hidden", count)
            for body in (write, "0\r\n\r\n" + write, f"{len(write):x}\r\n{write}\r\n0\r\n\r\n"):
                text = f"{head}\r\nHost: h\r\nRegistry-Retry-Key: u{count}\r\n{framing.replace('{length}', str(len(body)))}\r\n\r\n{body}"
                found = statuses_of(responses_to(self.nodes[0], text.encode("latin-1")))
                if found not in ([400], [501]):
                    raise Wrong(f"an ambiguous request got {found}: {text!r}")
        status, _ = ask(self.nodes[0], "GET", "/config/hidden", None, **{"Cache-Control": "no-cache"})
        check(status == 404, f"{3 * count} ambiguous requests are rejected, and none hides a write")

    def check_writes_without_key(self) -> None:
        """Checks that avroreg rejects each kind of write with the key `?`. So the relay can't apply a write past the log."""
        third = self.nodes[2]
        for method, target, body in WRITES:
            connection = http.client.HTTPConnection("127.0.0.1", third.ports["registry"], timeout=60)
            connection.request(method, target, body, {"Registry-Retry-Key": NO_KEY.decode()})
            response = connection.getresponse()
            if (response.status, json.loads(response.read())["error_code"]) != (400, 40001):
                raise Wrong(f"avroreg accepted a write with the relay's key for reads: {method} {target}")
            connection.close()
        check(True, f"avroreg rejects {len(WRITES)} writes of all kinds with the relay's key for reads")

    def entries(self) -> int:
        found = re.search("log: ([0-9]+) entries", self.command(self.nodes[0], "status"))
        return int(found[1]) if found else -1

    def check_writes_with_key(self) -> None:
        """Checks that the relay appends each kind of write before it sends it to avroreg."""
        before = self.entries()
        for at, (method, target, body) in enumerate(WRITES):
            status, response = ask(self.nodes[0], method, target, body, **{"Registry-Retry-Key": f"w{at}"})
            if status != 200:
                raise Wrong(f"{method} {target} got {status}: {response!r}")
            if self.entries() != before + at + 1:
                raise Wrong(f"a write is past the log: {method} {target}")
        check(True, f"the log has {len(WRITES)} writes of all kinds")

    def check_malformed(self, count: int, pick: random.Random) -> None:
        """Sends writes with odd bodies and subjects to n1 and to an avroreg alone, which begin with the same contents. Checks that both
        return the same, and that the log gets exactly the writes that avroreg doesn't reject as malformed."""
        alone = self.start_alone()
        counts: collections.Counter[int] = collections.Counter()
        before = self.entries()
        for number in range(count):
            method, target, body = bodies.write(pick)
            found = [self.send_write(port, method, target, body, f"b{number}") for port in (self.nodes[0].ports["relay"], alone)]
            if found[0] != found[1]:
                raise Wrong(f"the relay returns {found[0]}, and avroreg {found[1]}: {method} {target} {body[:200]!r}")
            counts[found[0][0]] += 1
        appended = self.entries() - before
        check(appended == count - counts[400], f"{count} odd bodies: {counts[400]} are malformed for both, and the log has the other {appended}")

    def start_alone(self) -> int:
        """Starts an avroreg with the contents of n1. Returns its port."""
        first, port = self.nodes[0], free_ports(1)
        self.wait_until_equal()
        first.end("relay", signal.SIGTERM)
        first.end("registry", signal.SIGKILL)
        for name in ("registry.db", "registry.db-wal"):
            if (source := first.folder / name).exists():
                shutil.copy(source, self.folder / name)
        self.cluster.start("n1")
        self.alone = subprocess.Popen([self.program, "serve", "--db", self.folder / "registry.db", "--port", str(port)])
        self.wait_for(lambda: self.is_listening(port), "an avroreg alone serves a copy of n1's database")
        return port

    def is_listening(self, port: int) -> bool:
        with socket.socket() as connection:
            return connection.connect_ex(("127.0.0.1", port)) == 0

    def send_write(self, port: int, method: str, target: str, body: bytes, key: str) -> tuple[int, bytes]:
        connection = http.client.HTTPConnection("127.0.0.1", port, timeout=60)
        try:
            connection.request(method, target, body, {"Registry-Retry-Key": key, "Connection": "close"})
            response = connection.getresponse()
            return response.status, response.read()
        finally:
            connection.close()

    def tear_down(self) -> None:
        if self.alone:
            self.alone.kill()
            self.alone.wait()
        super().tear_down()

    def send_random_requests(self, count: int, pick: random.Random) -> None:
        counts: collections.Counter[int] = collections.Counter()
        for number in range(count):
            counts.update(statuses_of(responses_to(self.nodes[0], request(pick, number))))
        check(counts[200] and counts[400], f"{count} random requests; responses by status: {dict(sorted(counts.items()))}")

    def run(self, count: int, pick: random.Random) -> None:
        self.set_up()
        self.register(self.nodes[0], 3)
        self.check_ambiguous()
        self.check_writes_without_key()
        self.check_writes_with_key()
        self.check_malformed(count, pick)
        self.send_random_requests(count, pick)
        self.wait_until_equal()
        check(self.register(self.nodes[0], 1), "n1 goes on")
        self.wait_until_equal()


def main() -> None:
    parser = argparse.ArgumentParser(description=(__doc__ or "").split("\n")[0])
    parser.add_argument("program", type=pathlib.Path)
    parser.add_argument("--count", type=int, default=2000, help="how many random requests (2000)")
    parser.add_argument("--seed", type=int, default=1)
    parser.add_argument("--relay", type=pathlib.Path, default=HERE / "avroreg-relay", help="another relay, such as one with a break")
    options = parser.parse_args()
    end_on_sigterm()
    with tempfile.TemporaryDirectory() as folder:
        trial = Odd(pathlib.Path(folder), options.program.resolve(), options.relay.resolve())
        try:
            trial.run(options.count, random.Random(options.seed))
        except Wrong as fault:
            print(f"WRONG: {fault}")
            sys.exit(1)
        finally:
            trial.tear_down()


if __name__ == "__main__":
    main()
