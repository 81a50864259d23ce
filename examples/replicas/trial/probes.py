"""Probes of the nodes, and the longest time in which a healthy majority acknowledged no write.

A node is healthy while it has no fault, and its etcd and its relay answer each probe within a second. Nodes that get too little
time from a busy machine aren't healthy. So the bound doesn't depend on a quiet machine.
"""
import base64
import http.client
import json
import socket
import threading
import time
from typing import Iterable, Iterator, NamedTuple, Sequence

from trial.clients import FAULTS
from trial.local import Node
from trial.report import Fault

SECONDS = 1.0  # for an answer
PAUSE_SECONDS = 0.5
LATE_SECONDS = 3.0  # between two probes
SETTLING_SECONDS = 5.0  # the beginning of a healthy time doesn't count: a client may still wait for another node
NEWEST = json.dumps({"key": base64.b64encode(b"avroreg/newest").decode()})

Span = tuple[float, float]


class Sample(NamedTuple):
    at: float
    is_good: bool


class EtcdConnection(http.client.HTTPConnection):
    """A connection to etcd's socket."""

    def __init__(self, node: Node) -> None:
        super().__init__("etcd", timeout=SECONDS)
        self.path = str(node.etcd_socket)

    def connect(self) -> None:
        self.sock = socket.socket(socket.AF_UNIX)
        self.sock.settimeout(self.timeout)
        self.sock.connect(self.path)


def answers(connection: http.client.HTTPConnection, statuses: set[int], *request: str) -> bool:
    """Whether a service answers within a second, with one of these statuses."""
    began = time.monotonic()
    try:
        connection.request(*request)
        return connection.getresponse().status in statuses and time.monotonic() < began + SECONDS
    except FAULTS:
        return False
    finally:
        connection.close()


class Probe(threading.Thread):
    """Asks a node's etcd for a linearizable read, again and again, which needs a majority of the etcds. Then it asks the relay."""

    def __init__(self, node: Node) -> None:
        super().__init__(daemon=True)
        self.node, self.stop = node, threading.Event()
        self.samples: list[Sample] = []

    def run(self) -> None:
        while not self.stop.wait(PAUSE_SECONDS):
            is_good = self.succeeds()
            self.samples.append(Sample(time.monotonic(), is_good))

    def succeeds(self) -> bool:
        relay = http.client.HTTPConnection(self.node.host, self.node.ports["admin"], timeout=SECONDS)
        is_good = answers(EtcdConnection(self.node), {200}, "POST", "/v3/kv/range", NEWEST)
        return is_good and answers(relay, {200, 503}, "GET", "/health")


def healthy_spans(node: str, samples: list[Sample], faults: Sequence[Fault]) -> Iterator[Span]:
    """The times between two good probes in which a node had no fault."""
    for (start, was_good), (end, is_good) in zip(samples, samples[1:]):
        has_fault = any(node in it.nodes and it.began < end and it.ended > start for it in faults)
        if was_good and is_good and end - start < LATE_SECONDS and not has_fault:
            yield start, end


def majority_spans(nodes: list[list[Span]]) -> Iterator[Span]:
    """The times in which more than half of the nodes were healthy."""
    spans = [it for found in nodes for it in found]
    count, began = 0, 0.0
    for at, is_end in sorted([(start, False) for start, _ in spans] + [(end, True) for _, end in spans]):
        before, count = count, count + (-1 if is_end else 1)
        if 2 * before <= len(nodes) < 2 * count:
            began = at
        elif 2 * count <= len(nodes) < 2 * before:
            yield began, at


def longest_gap(spans: Sequence[Span], began: float, answered: Iterable[float], ended: float) -> float:
    """The longest healthy time between two acknowledged writes."""
    settled = [(start + SETTLING_SECONDS, end) for start, end in spans if start + SETTLING_SECONDS < end]
    moments = [began, *sorted(it for it in answered if began < it < ended), ended]
    gaps = zip(moments, moments[1:])
    return max(sum(max(0.0, min(end, later) - max(start, earlier)) for start, end in settled) for earlier, later in gaps)
