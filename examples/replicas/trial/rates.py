#!/usr/bin/env python3
"""Measures writes and reads a second and their times, of a single avroreg and of three nodes in turn.

    rates.py PROGRAM [SECONDS [ROUNDS]]     3 rounds of 2 seconds for each figure

Each client is a process. It sends requests directly to avroreg or the relays, or by TLS through the nginx of README.md.
Both systems run all the time, and the rounds of each figure alternate between them. So other work on the machine slows down
both. The nodes, etcd and the clients share this machine.
"""
import base64
import http.client
import multiprocessing
import os
import pathlib
import signal
import sys
import tempfile
import time
from multiprocessing.queues import Queue
from typing import NamedTuple

HERE = pathlib.Path(__file__).resolve().parent.parent
sys.path.insert(0, str(HERE))

from trial import front  # noqa: E402
from trial.local import Cluster, free_ports  # noqa: E402
from trial.steps import FAULTS, end_on_sigterm, schema  # noqa: E402

COUNTS = (1, 8, 64)
KINDS = ("write", "read", "fresh read")
HEAD = """| | Clients | One: a second | Half within | 99 of 100 within | Three: a second | Half within | 99 of 100 within | Rate, of one's | Half, of one's |
|---|---|---|---|---|---|---|---|---|---|"""
PASSWORD = {"Authorization": "Basic " + base64.b64encode(":".join(front.USER).encode()).decode()}


class System(NamedTuple):
    """The servers of the clients. A client keeps its connection, or opens one for each request."""

    ports: list[int]
    authority: str  # the file of the trusted authority; empty without TLS
    is_kept: bool = True

    def connection(self, number: int) -> http.client.HTTPConnection:
        port = self.ports[number % len(self.ports)]
        if not self.authority:
            return http.client.HTTPConnection("127.0.0.1", port, timeout=60)
        return front.connection(port, pathlib.Path(self.authority))


def send(connection: http.client.HTTPConnection, kind: str, count: int, fields: dict[str, str]) -> bool:
    """Sends one request. Returns whether it got 200."""
    if kind == "write":
        key = {"Registry-Retry-Key": f"{os.getpid()}.{count}"}
        connection.request("POST", f"/subjects/r{os.getpid()}-{count}/versions", schema(count % 50), {**fields, **key})
    else:
        fresh = {"Cache-Control": "no-cache"} if kind == "fresh read" else {}
        connection.request("GET", "/schemas/ids/1", headers={**fields, **fresh})
    response = connection.getresponse()
    response.read()
    return response.status == 200


def client(number: int, system: System, kind: str, begin: float, end: float, results: "Queue[list[float]]") -> None:
    """Sends one request before the measured time, and then one after the other until its end."""
    connection, times, count = system.connection(number), list[float](), 0
    fields = {**({} if system.is_kept else {"Connection": "close"}), **(PASSWORD if system.authority else {})}
    while time.time() < end:
        began = time.time()
        try:
            if send(connection, kind, count, fields) and count:
                times.append(time.time() - began)
        except FAULTS:
            connection.close()
        if not count:
            time.sleep(max(0, begin - time.time()))
        count += 1
    results.put(times)


def measure(system: System, kind: str, clients: int, seconds: float) -> list[float]:
    """The time of each request with status 200."""
    results: "Queue[list[float]]" = multiprocessing.Queue()
    begin = time.time() + 0.5 + clients / 32
    workers = [multiprocessing.Process(target=client, args=(it, system, kind, begin, begin + seconds, results)) for it in range(clients)]
    for worker in workers:
        worker.start()
    times = [it for _ in workers for it in results.get()]
    for worker in workers:
        worker.join()
    return times


def compare(way: str, kind: str, clients: int, systems: tuple[System, System], seconds: float, rounds: int) -> None:
    """Prints a row for one and for three nodes: requests a second, and the times within which half and 99 of 100 got a response."""
    times: tuple[list[float], list[float]] = ([], [])
    for _ in range(rounds):
        for system, found in zip(systems, times):
            found += measure(system._replace(is_kept=system.is_kept or clients == 1), kind, clients, seconds)
    rates = [len(it) / (seconds * rounds) for it in times]
    halves, most = ([sorted(it)[len(it) * part // 100] * 1000 if it else 0.0 for it in times] for part in (50, 99))
    cells = [f"{rate:.0f} | {half:.1f} ms | {top:.1f} ms" for rate, half, top in zip(rates, halves, most)]
    ratios = f"{rates[1] / max(rates[0], 1):.2f} | {halves[1] / max(halves[0], 0.001):.2f}"
    print(f"| {kind}, {way} | {clients} | {' | '.join(cells)} | {ratios} |", flush=True)


def single_front(folder: pathlib.Path, port: int, tls: pathlib.Path, users: pathlib.Path) -> front.Nginx:
    """Starts the nginx of a single avroreg, with TLS and users, and without limits and the cache of schemas."""
    source, roles, https = HERE.parent / "nginx", folder / "roles.conf", free_ports(2)
    roles.write_text((source / "roles.conf").read_text().replace('"~^admin$"', f'"~^{front.USER[0]}$"'))
    config = (source / "avroreg.conf").read_text()
    for mark in ("#tls ", "#users "):
        config = config.replace(mark, "")
    for old, new in (
        ("127.0.0.1:8081", f"127.0.0.1:{port}"),
        ("listen 127.0.0.1:8080", f"listen 127.0.0.1:{https + 1}"),
        ("listen 443", f"listen 127.0.0.1:{https}"),
        ("include avroreg-roles.conf", f"include {roles}"),
        ("/etc/nginx/avroreg.users", str(users)),
        ("/etc/nginx/avroreg", f"{tls}/n1"),
        ("/var/log/nginx/", f"{folder}/"),
        ("/var/lib/nginx/avroreg", f"{folder}/cache"),
        ("rate=200r/s", "rate=1000000r/s"),
        ("avroreg_connections 50;", "avroreg_connections 1000;"),
        ("proxy_cache $schema_cache;", "proxy_cache off;"),
    ):
        if old not in config:
            raise SystemExit(f"rates.py: avroreg.conf has no {old}")
        config = config.replace(old, new)
    return front.Nginx(folder / "nginx", config, https)


def main() -> None:
    end_on_sigterm()
    program = pathlib.Path(sys.argv[1]).resolve()
    seconds, rounds = float(sys.argv[2]) if len(sys.argv) > 2 else 2.0, int(sys.argv[3]) if len(sys.argv) > 3 else 3
    with tempfile.TemporaryDirectory() as name:
        folder = pathlib.Path(name)
        three, one = Cluster(folder / "three"), Cluster(folder / "one")
        fronts: list[front.Nginx] = []
        try:
            for cluster in (three, one):
                cluster.new(program)
            three.start()
            one.start("n1", "registry")
            tls, alone = three.folder / "tls", one.nodes["n1"].ports["registry"]
            fronts += [front.of_node(three, it) for it in three.nodes.values()]
            fronts.append(single_front(folder, alone, tls, front.set_up_users(folder)))
            for it in fronts:
                it.wait()
            ways = {
                "direct": (System([alone], "", False), System([it.ports["relay"] for it in three.nodes.values()], "")),
                "nginx": (System([fronts[3].port], str(tls / "ca.crt")), System([it.port for it in fronts[:3]], str(tls / "ca.crt"))),
            }
            print(HEAD)
            for way, systems in ways.items():
                for kind in KINDS:
                    for clients in COUNTS:
                        compare(way, kind, clients, systems, seconds, rounds)
        finally:
            for it in fronts:
                it.stop()
            for cluster in (three, one):
                cluster.end(signal.SIGKILL)


if __name__ == "__main__":
    main()
