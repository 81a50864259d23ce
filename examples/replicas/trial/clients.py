"""The trial's clients: their writes, the responses, and their reads."""
import collections
import dataclasses
import http.client
import random
import re
import threading
import time
from typing import Any

from trial.local import Node
from trial.machine import compact

FAULTS = (OSError, http.client.HTTPException)
KEY = "Registry-Retry-Key"
LEVELS = ("NONE", "BACKWARD", "FORWARD", "FULL", "BACKWARD_TRANSITIVE", "FORWARD_TRANSITIVE", "FULL_TRANSITIVE")
KINDS = {"register": 52, "version": 12, "subject": 5, "level": 12, "mode": 4, "invalid": 2, "no level": 2, "malformed": 2, "reused key": 4,
         "global": 5}  # fmt: skip


def ask(node: Node, method: str, target: str, body: bytes = b"", key: str | None = None, seconds: float = 10, is_fresh: bool = False) -> Any:
    """Sends a request. Returns the status, the key and the body of the response."""
    connection = http.client.HTTPConnection(node.host, node.ports["relay"], timeout=seconds)
    try:
        fields = {"Connection": "close", **({KEY: key} if key else {}), **({"Cache-Control": "no-cache"} if is_fresh else {})}
        connection.request(method, target, body or None, fields)
        response = connection.getresponse()
        return response.status, response.headers[KEY], response.read()
    finally:
        connection.close()


@dataclasses.dataclass(eq=False)
class Write:
    """A write of a client, which must be applied once, with all its responses."""

    method: str
    target: str
    body: bytes
    key: str | None
    responses: list[tuple[int, bytes]] = dataclasses.field(default_factory=list)
    tries: int = 0
    began: float = dataclasses.field(default_factory=time.monotonic)
    answered: float = 0.0
    node: Node | None = None

    def message(self) -> bytes:
        head = f"{self.method} {self.target} HTTP/1.1\r\nHost: registry\r\nRegistry-Retry-Key: {self.key}\r\n"
        return f"{head}Content-Length: {len(self.body)}\r\n\r\n".encode() + self.body


class Client(threading.Thread):
    """Writes, mostly in its own subjects. Retries a write without a response, and reads after its writes."""

    def __init__(self, nodes: list[Node], number: int, rate: float, seed: int) -> None:
        super().__init__(daemon=True)
        self.nodes, self.number, self.rate, self.random = nodes, number, rate, random.Random(seed * 100 + number)
        self.stop, self.give_up = threading.Event(), threading.Event()
        self.count = 0
        self.writes: list[Write] = []
        self.unanswered: list[Write] = []
        self.wrong: list[str] = []
        self.seconds: list[float] = []
        self.counts: collections.Counter[str] = collections.Counter()
        self.read_only_path: str | None = None

    def run(self) -> None:
        try:
            while not self.stop.is_set():
                due = time.monotonic() + self.random.expovariate(self.rate)
                if self.random.random() < 0.02:
                    self.race()
                write = self.next_write()
                self.send_until_answered(write)
                if write.responses:
                    self.read_after(write)
                    if self.random.random() < 0.1:
                        self.send_once(self.random.choice(self.writes), self.random.choice(self.nodes), 6)
                self.stop.wait(max(0, due - time.monotonic()))
        except Exception as fault:  # any exception of a client is a fault of the trial
            self.wrong.append(f"client {self.number} stopped: {fault!r}")

    def new_key(self) -> str:
        return f"c{self.number}.{self.count}"

    def schema(self, is_shared: bool) -> bytes:
        pick = self.random
        doc = f"shared-{pick.randrange(25)}" if is_shared and pick.random() < 0.5 else f"c{self.number}-{self.count}"
        fields: list[dict[str, object]] = [
            {"default": 0, "name": f"f{it}", "type": "long"} for it in sorted(pick.sample(range(6), pick.randint(1, 3)))
        ]
        if pick.random() < 0.2:
            fields.append({"name": f"r{pick.randrange(4)}", "type": "long"})
        return compact({"schema": compact({"doc": doc, "fields": fields, "name": "R", "type": "record"})}).encode()

    def next_write(self) -> Write:
        self.count += 1
        pick, key = self.random, self.new_key()
        is_own = pick.random() < 0.6
        subject = f"own-{self.number}-{self.count // 60}-{pick.randrange(3)}" if is_own else f"shared-{pick.randrange(6)}"
        maybe = key if is_own or pick.random() < 0.5 else None
        if self.read_only_path:
            target, self.read_only_path = self.read_only_path, None
            return Write("PUT", target, b'{"mode":"READWRITE"}', key)
        kind = pick.choices(list(KINDS), list(KINDS.values()))[0]
        if kind == "register":
            return Write("POST", f"/subjects/{subject}/versions", self.schema(not is_own), maybe)
        if kind == "version":
            word = pick.choice(("latest", "1", "2", "3", "4", "x"))
            return Write("DELETE", f"/subjects/{subject}/versions/{word}" + pick.choice(("", "", "?permanent=true")), b"", maybe)
        if kind == "subject":
            return Write("DELETE", f"/subjects/{subject}" + pick.choice(("", "?permanent=true")), b"", maybe)
        if kind == "mode":
            self.read_only_path = f"/mode/{subject}"
            return Write("PUT", self.read_only_path, b'{"mode":"READONLY"}', maybe)
        if kind == "invalid":
            return Write("POST", f"/subjects/{subject}/versions", b'{"schema":"nonsense"}', maybe)
        if kind == "malformed":
            return Write("PUT", f"/mode/{subject}", b'{"mode":', maybe)
        if kind == "reused key" and self.writes:
            used = pick.choice(self.writes).key
            return Write("PUT", f"/config/reuse-{self.number}-{self.count}", b'{"compatibility":"FULL"}', used)
        if kind == "global" and self.number == 0 and pick.random() < 0.3:
            self.read_only_path = "/mode"
            return Write("PUT", "/mode", b'{"mode":"READONLY"}', key)
        level = "MOST" if kind == "no level" else pick.choice(LEVELS)
        return Write("PUT", "/config" if kind == "global" else f"/config/{subject}", compact({"compatibility": level}).encode(), maybe)

    def send_once(self, write: Write, node: Node, seconds: float) -> bool:
        """Sends a write once. Returns whether its response is final."""
        write.tries += 1
        began = time.monotonic()
        try:
            status, key, body = ask(node, write.method, write.target, write.body, write.key, seconds)
        except FAULTS:
            self.counts["no response"] += 1
            return False
        if status >= 500:
            self.counts[f"response {status}"] += 1
            return False
        self.seconds.append(time.monotonic() - began)
        write.key = write.key or key
        write.responses.append((status, body))
        return True

    def send_until_answered(self, write: Write) -> None:
        """Sends a write to node after node until it gets a response. A write without a key is sent only once."""
        nodes = self.random.sample(self.nodes, len(self.nodes))
        if write.key and self.random.random() < 0.07:
            self.send_all_at_once([(write, it) for it in nodes[:2]])
            self.counts["sent to two nodes at once"] += 1
        while not write.responses and (write.tries == 0 or write.key):
            write.node = nodes[write.tries % len(nodes)]
            if not self.send_once(write, write.node, self.random.uniform(1, 6)):
                self.counts["retried or given up"] += 1
                if self.give_up.wait(0.1):
                    break
        self.keep(write)

    def keep(self, write: Write) -> None:
        if write.responses:
            write.answered = time.monotonic()
            self.writes.append(write)
        else:
            self.unanswered.append(write)

    def send_all_at_once(self, pairs: list[tuple[Write, Node]]) -> None:
        threads = [threading.Thread(target=self.send_once, args=(write, node, 6)) for write, node in pairs]
        for it in threads:
            it.start()
        for it in threads:
            it.join()

    def race(self) -> None:
        """Sends two requests with one key to two nodes at once: one must be executed, the other must get 42290."""
        self.count += 1
        pair = [Write("PUT", f"/config/race-{self.number}", compact({"compatibility": it}).encode(), self.new_key()) for it in ("FULL", "NONE")]
        nodes = self.random.sample(self.nodes, 2)
        self.send_all_at_once(list(zip(pair, nodes)))
        for write in pair:
            while not write.responses and not self.give_up.is_set():
                self.send_once(write, self.random.choice(self.nodes), 6)
            self.keep(write)
        if all(it.responses for it in pair) and sorted(it.responses[0][0] for it in pair) not in ([200, 422], [422, 422]):
            self.wrong.append(f"a race for a key: {[it.responses for it in pair]}")
        self.counts["races for a key"] += 1

    def read_after(self, write: Write) -> None:
        """Checks that a fresh read at another node equals a read at the node of the write. Only this client writes to the subject."""
        subject = re.search("own-[0-9-]+", write.target)
        if not subject or not write.node or self.random.random() < 0.5:
            return
        near, far = write.node, self.random.choice([it for it in self.nodes if it is not write.node])
        target = self.random.choice((f"/subjects/{subject[0]}/versions?deleted=true", f"/subjects/{subject[0]}/versions",
                                     f"/config/{subject[0]}", f"/subjects/{subject[0]}/versions/latest"))  # fmt: skip
        try:
            here, local, there = (ask(node, "GET", target, is_fresh=is_fresh) for node, is_fresh in ((near, False), (far, False), (far, True)))
        except FAULTS:
            self.counts["reads without a response"] += 1
            return
        self.counts["reads"] += 3
        if max(here[0], there[0]) < 500:
            self.counts["fresh reads"] += 1
            self.counts["stale reads"] += local[0] < 500 and local != there
            if here != there:
                self.wrong.append(f"a fresh read of {target}: {here} at {near.name}, {there} at {far.name}")
            if local[0] == 404 and here[0] != 404:
                self.wrong.append(f"a stale 404 of {target} at {far.name}")
