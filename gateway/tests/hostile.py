#!/usr/bin/env python3
"""Sends checks with messages for schemas that make the search of reasons slow, and measures how long nginx serves nobody else.

    python3 gateway/tests/hostile.py GATEWAY PROCESS     status 1 if it is longer than a second, or if a verdict changes

The time is processor time of nginx's worker, PROCESS, so other programs of a busy machine hardly change it.
"""
import json
import sys
import threading
import time

from client import Client, field

SECONDS = 1.0


def record(name, fields):
    return {"type": "record", "name": name, "fields": fields}


def nested(depth, leaf):
    """Records in unions, as generated schemas have them."""
    for at in range(depth):
        leaf = record(f"N{at}", [field("f", ["null", leaf])])
    return leaf


def arrays(depth, leaf):
    for _ in range(depth):
        leaf = {"type": "array", "items": leaf}
    return leaf


def wide(letter):
    """A union of 900 records."""
    return record("T", [field("u", [record(f"{letter}{at}", [field(f"x{other}", "int") for other in range(3)]) for at in range(900)])])


def ladder(steps, leaf, prefix, width):
    """Steps of records. Each has a field of the union of the next step's records."""
    union = ["null"]
    for step in range(steps, 0, -1):
        for at in range(width):
            below = leaf if step == steps else [f"{prefix}{other}.A{step + 1}" for other in range(width)]
            union.append({**record(f"A{step}", [field("f", below)]), "namespace": f"{prefix}{at}"})
    return record("T", [field(prefix + "d", union, default=None), field("f", [f"{prefix}{at}.A1" for at in range(width)])])


CASES = [*((f"{depth} nested records", nested(depth, "int"), nested(depth, "string")) for depth in (4, 5, 6, 8, 11)),
         ("wide unions", wide("W"), wide("V")), ("22 arrays", arrays(22, "int"), arrays(22, "string")),
         ("a ladder", ladder(30, "int", "w", 1), ladder(30, "string", "r", 2)),
         ("4,000 fields", *(record("T", [field(f"{letter}{at}", "int") for at in range(4000)]) for letter in "fg"))]


def processor_seconds(process):
    with open(f"/proc/{process}/schedstat", encoding="ascii") as file:
        return int(file.read().split()[0]) / 1e9


class Others(threading.Thread):
    """Another client, whose requests nginx alone responds to. `slowest` is the longest work of the worker during a request."""

    def __init__(self, client, process):
        super().__init__(daemon=True)
        self.client, self.process, self.slowest = client, process, 0.0

    def run(self):
        while True:
            began = processor_seconds(self.process)
            self.client.get("/contexts")
            self.slowest = max(self.slowest, processor_seconds(self.process) - began)
            time.sleep(0.002)


def main():
    client, slow = Client(sys.argv[1]), 0
    others = Others(client, sys.argv[2])
    others.start()
    for at, (name, writer, reader) in enumerate(CASES):
        client.check_passed("POST", f"/subjects/hostile{at}/versions", {"schema": json.dumps(writer)})
        check, body = f"/compatibility/subjects/hostile{at}/versions", {"schema": json.dumps(reader)}
        client.check_same({"is_compatible": False}, "POST", check, body)
        others.slowest, began = 0.0, time.monotonic()
        found = client.check_passed("POST", f"{check}?verbose=true", body).json()
        seconds = time.monotonic() - began
        assert not found["is_compatible"] and "{oldSchemaVersion: 1}" in found["messages"], (name, found)
        slow += others.slowest > SECONDS
        print(f"{name}: {seconds:.3f} s, others wait for {others.slowest:.3f} s; first message: {found['messages'][0][:80]}", flush=True)
    return 1 if slow else 0


if __name__ == "__main__":
    sys.exit(main())
