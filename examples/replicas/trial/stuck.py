"""Entries of the log that stop every node: a slow check, and an entry that no relay wrote."""
import base64
import json
import re
import signal
import subprocess

from trial.large import slow_reader, slow_writer
from trial.local import Node
from trial.steps import STALE, LocalTrial, Wrong, ask, check, mode


def code_of(found: tuple[int, bytes]) -> int:
    return int(json.loads(found[1])["error_code"])


class Stuck(LocalTrial):
    def slow_check(self) -> None:
        """A check blocks every avroreg, also after restarts. The nodes agree to skip it."""
        self.set_up()
        first, second, third = self.nodes
        self.write(first, "PUT", "/config/slow", b'{"compatibility":"NONE"}')
        for number in range(40):
            self.write(first, "POST", "/subjects/slow/versions", slow_writer(number))
        self.write(first, "PUT", "/config/slow", b'{"compatibility":"BACKWARD_TRANSITIVE"}')
        self.wait_until_equal()
        refused = self.command(first, "skip", first.health()["revision"], "--reason", "a test", fails=True)
        check("isn't the one" in refused, "an entry that was applied can't be skipped")
        self.wait_until_equal()
        poison = {"Registry-Retry-Key": "poison"}
        check(ask(first, "POST", "/subjects/slow/versions", slow_reader(), **poison)[0] == 503, "a registration with a slow check gets 503")
        self.wait_for(lambda: all("working on revision" in str(it.health()) for it in self.nodes), "every /health names the revision")
        for node in self.nodes:
            found = ask(node, "PUT", "/config/late", b'{"compatibility":"FULL"}')
            check(found[0] == 503 and code_of(found) == 50305, f"{node.name} is behind, so it refuses writes before they reach the log")
        for node in self.nodes:
            node.end("registry", signal.SIGKILL)
            node.start("registry")
        number = re.search("working on revision ([0-9]+)", str(first.health()))
        assert number
        self.skip_everywhere(int(number[1]))
        for node in self.nodes:
            self.wait_for(lambda: code_of(ask(node, "POST", "/subjects/slow/versions", slow_reader(), **poison)) == 42290, f"a retry at {node.name} gets 42290")
        check(ask(second, "GET", "/config/late")[0] == 404, "the writes that were refused aren't applied")
        self.register(first, 1)
        self.wait_until_equal()
        third.end("relay", signal.SIGTERM)
        third.position.unlink()
        third.start("relay")
        self.wait_for(lambda: third.health().get("revision") == first.health()["revision"], "n3 applies the log from its beginning again")
        self.wait_until_equal()

    def write(self, node: Node, method: str, target: str, body: bytes) -> None:
        self.count += 1
        for _ in range(100):
            found = ask(node, method, target, body, **{"Registry-Retry-Key": f"w{self.count}"})
            if found[0] == 200:
                return
        raise Wrong(f"{method} {target} got {found}")

    def skip_everywhere(self, revision: int) -> None:
        first, second, third = self.nodes
        reason = ("--reason", "it blocks every node")
        check("no entry" in self.command(first, "skip", revision + 1, *reason, fails=True), "a revision without an entry can't be skipped")
        check("run this on n2 and n3" in self.command(first, "skip", revision, *reason), "n1 votes and waits")
        check(ask(first, "GET", "/subjects", None, **STALE)[0] == 200, "its avroreg answers again")
        self.wait_for(lambda: "waits for the votes" in str(first.health()), "its /health says so")
        check("run this on n3" in self.command(second, "skip", revision, *reason), "n2 votes and waits")
        check("every node skips" in self.command(third, "skip", revision, *reason), "n3 votes, and every node skips it")
        check("it blocks every node" in self.command(first, "status"), "status has the reason")

    def foreign_entry(self) -> None:
        """etcd listens on a socket that no web page and no other user reaches. An entry that no relay wrote can be skipped."""
        self.set_up()
        first = self.nodes[0]
        self.register(first, 2)
        self.wait_until_equal()
        for node in self.nodes:
            found = subprocess.run(["ss", "-ltnpH"], capture_output=True, text=True, check=True).stdout.splitlines()
            ports = [it.split()[3].rpartition(":")[2] for it in found if f"pid={node.process('etcd')}," in it]
            check(ports == [str(node.ports["peer"])], f"etcd of {node.name} has only the port for its peers, which asks for a certificate")
            check(mode(node.etcd_socket) & 0o007 == 0, "other users can't use its socket")
        put = {"key": base64.b64encode(b"avroreg/log/x").decode(), "value": base64.b64encode(b"hello").decode()}
        check("header" in first.etcd("/v3/kv/put", put), "root puts a foreign entry into the log")
        self.wait_for(lambda: all(it.health().get("status") == "stopped" for it in self.nodes), "every node stops")
        number = re.search("avroreg-cluster skip ([0-9]+)", str(first.health()))
        assert number
        for node in self.nodes:
            self.command(node, "skip", number[1], "--reason", "no relay wrote it")
        self.register(first, 1)
        self.wait_until_equal()
