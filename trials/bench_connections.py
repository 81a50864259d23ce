"""Measures two servers with many connections. bench_connections.sh runs it, and describes the parts.

    python3 trials/bench_connections.py OLD_PROCESS OLD_PORT OLD_NGINX_PORT NEW_PROCESS NEW_PORT NEW_NGINX_PORT [PART]..
"""
import contextlib
import http.client
import json
import multiprocessing
import os
import re
import socket
import subprocess
import sys
import tempfile
import time
from concurrent.futures import ThreadPoolExecutor
from typing import NamedTuple

HOST = "127.0.0.1"
SECONDS = int(os.environ.get("SECONDS_EACH", "3"))
REQUESTS = int(os.environ.get("REQUESTS", "1000000"))
CLIENTS = (1, 2, 8, 64, 256)
EACH = 100  # requests on each connection of `memory`
SLOW_RATE = 800_000  # bytes a second
LARGE_RESPONSES = 200  # responses of 100 KB to the slow reader
IDLE = 1000
FIELDS = [{"name": f"field_{it}", "type": ["null", "string"], "default": None} for it in range(1, 21)]
ORDER = json.dumps({"schema": json.dumps({"type": "record", "name": "Order", "fields": FIELDS})})
LARGE = json.dumps({"schema": json.dumps({"type": "record", "name": "R", "doc": "x" * 100_000, "fields": []})})
GET_ORDER = b"GET /schemas/ids/1 HTTP/1.1\r\nHost: x\r\n\r\n"
GET_LARGE = b"GET /schemas/ids/2 HTTP/1.1\r\nHost: x\r\n\r\n"
# nginx caches schemas by id, so a read through it asks for the latest version.
READ, LATEST, LOOKUP = ("GET", "/schemas/ids/1"), ("GET", "/subjects/orders/versions/latest"), ("POST", "/subjects/orders")
REPORT = """
wrk.method, wrk.body = "%s", %s
function done(summary, latency)
  local errors = summary.errors
  local wrong = errors.connect + errors.read + errors.write + errors.status
  io.write(string.format("MEASURED %%.0f %%d %%d %%d %%d %%d\\n", summary.requests / summary.duration * 1e6,
    latency:percentile(50), latency:percentile(99), wrong, errors.timeout, summary.requests))
end
"""


class Server(NamedTuple):
    name: str
    process: int
    port: int
    front: int


class Rate(NamedTuple):
    """Requests a second, the median and the 99th percentile in microseconds, wrong responses and resets, timeouts, and requests
    in a second of the server's processor time."""

    rate: int
    median: int
    slow: int
    wrong: int
    timeouts: int
    per_cpu_second: float


bounds = []


def hold(what, holds):
    """Records a bound."""
    bounds.append(holds)
    print(f"  {'holds' if holds else 'FAILS'}: {what}", flush=True)


def load():
    with open("/proc/loadavg", encoding="ascii") as file:
        return file.read().split()[0]


def register(server, subject, body):
    connection = http.client.HTTPConnection(HOST, server.port, timeout=60)
    connection.request("POST", f"/subjects/{subject}/versions", body)
    answer = connection.getresponse()
    if answer.status != 200:
        sys.exit(f"{server.name}: {answer.read()}")
    connection.close()


def cpu_seconds(server):
    """The processor time that a server has used."""
    with open(f"/proc/{server.process}/stat", encoding="ascii") as stat:
        fields = stat.read().rsplit(")", 1)[1].split()
    return (int(fields[11]) + int(fields[12])) / os.sysconf("SC_CLK_TCK")


def measure_rate(server, port, clients, request):
    """The rate of requests from this number of clients."""
    method, target = request
    body = f"[==[{ORDER}]==]" if method == "POST" else "nil"
    used = cpu_seconds(server)
    with tempfile.NamedTemporaryFile("w", suffix=".lua") as script:
        script.write(REPORT % (method, body))
        script.flush()
        command = ["wrk", "-t1", f"-c{clients}", f"-d{SECONDS}s", "--timeout", "10s", "-s", script.name]
        printed = subprocess.run([*command, f"http://{HOST}:{port}{target}"], capture_output=True, text=True).stdout
    *figures, count = map(int, re.search(r"^MEASURED (.*)$", printed, re.MULTILINE)[1].split())
    return Rate(*figures, count / max(cpu_seconds(server) - used, 0.01))


def measure_rates(old, new, requests, port_of):
    """Measures each number of clients over both servers, in turn. Returns the rates by request, clients and server."""
    rates = {}
    for request in requests:
        print(f"{' '.join(request)}: requests a second, median, 99th percentile, wrong and reset, timeouts, a second of processor time", flush=True)
        for clients in CLIENTS:
            for server in (old, new):
                it = rates[request, clients, server.name] = measure_rate(server, port_of(server), clients, request)
                figures = f"{it.rate:7,d}/s {it.median / 1000:9.2f} ms {it.slow / 1000:9.2f} ms {it.wrong:5d} {it.timeouts:5d} {it.per_cpu_second:9,.0f}"
                print(f"  {clients:3d} clients, {server.name}: {figures}   load {load()}", flush=True)
    return rates


def rates(old, new):
    found = measure_rates(old, new, (READ, LOOKUP), lambda server: server.port)
    for request in (READ, LOOKUP):
        one, least = found[request, 1, "new"], 0.85 * found[request, 1, "old"].rate
        for clients in CLIENTS:
            it, name = found[request, clients, "new"], f"{request[0]}, {clients} clients"
            hold(f"{name}: {it.rate:,d} requests a second are at least 0.85 of the old rate of one client, {least:,.0f}", it.rate >= least)
            if clients >= 8:
                hold(f"{name}: no reset and no timeout", it.wrong + it.timeouts == 0)
                hold(f"{name}: the 99th percentile is {it.slow / one.median:.0f} times one client's median; at most 60", it.slow <= 60 * one.median)


def nginx(old, new):
    found = measure_rates(old, new, (LATEST, LOOKUP), lambda server: server.front)
    for request in (LATEST, LOOKUP):
        before, after = (found[request, 64, name].rate for name in ("old", "new"))
        hold(f"{request[0]} through nginx, 64 clients: {after / max(before, 1):.1f} times the old rate; at least 2.5", after >= 2.5 * before)
        wrong = sum(found[request, clients, "new"].wrong + found[request, clients, "new"].timeouts for clients in CLIENTS)
        hold(f"{request[0]} through nginx: no reset and no timeout", wrong == 0)


def large(_, new):
    """256 clients read a schema of 1 MB. Their responses at once would take more memory than the server may use."""
    text = json.dumps({"type": "record", "name": "R", "doc": "x" * 1_000_000, "fields": []})
    register(new, "larger", json.dumps({"schema": text}))
    it = measure_rate(new, new.port, 256, ("GET", "/subjects/larger/versions/latest"))
    print(f"256 clients, responses of 1 MB: {it.rate:,d}/s   load {load()}", flush=True)
    hold(f"responses of 1 MB: {it.wrong} resets and wrong ones; none is allowed, and some response comes", it.wrong == 0 and it.rate > 0)
    hold(f"responses of 1 MB: {usage(new)[0]:,d} KiB of memory are at most 200,000", usage(new)[0] <= 200_000)


def connect(port):
    return socket.create_connection((HOST, port), timeout=10)


def drip(port):
    """Sends a byte of a request a second."""
    with connect(port) as connection:
        connection.sendall(b"GET /subjects HTTP/1.1\r\nName: ")
        while True:
            time.sleep(1)
            connection.sendall(b"a")


def pipeline(port):
    """Sends requests for 100 KB without end, and reads the responses as fast as they come."""
    with connect(port) as connection:
        connection.setblocking(False)
        requests, sent = GET_LARGE * 50, 0
        while True:
            with contextlib.suppress(BlockingIOError):
                sent = (sent + connection.send(requests[sent:])) % len(requests)
            try:
                if not connection.recv(1 << 20):
                    return
            except BlockingIOError:
                time.sleep(0.0005)


def be_mute(port):
    """Sends requests for 100 KB, and reads nothing."""
    with connect(port) as connection:
        connection.sendall(GET_LARGE * 1000)
        time.sleep(3600)


def be_idle(port):
    """Keeps connections without a request."""
    kept = [connect(port) for _ in range(IDLE)]
    time.sleep(3600)
    return kept


OTHERS = {"nobody": None, "a byte a second": drip, "pipelining": pipeline, "never reading": be_mute, f"{IDLE} idle": be_idle}


def run_quietly(behave, port):
    with contextlib.suppress(OSError):
        behave(port)


def probe(port):
    """The times of a client's requests, one every 10 ms. It connects again if the server closed its connection."""
    times, end, connection = [], time.monotonic() + SECONDS, http.client.HTTPConnection(HOST, port, timeout=5)
    while time.monotonic() < end:
        began = time.monotonic()
        try:
            connection.request("GET", "/schemas/ids/1")
            connection.getresponse().read()
        except (ConnectionError, http.client.HTTPException):
            connection.close()
        except TimeoutError:
            connection.close()
        times.append(time.monotonic() - began)
        time.sleep(0.01)
    return sorted(times)


def probes(old, new):
    print("a client that asks every 10 ms: responses, median, 99th percentile, next to", flush=True)
    for name, behave in OTHERS.items():
        for server in (old, new):
            other = behave and multiprocessing.Process(target=run_quietly, args=(behave, server.port), daemon=True)
            if other:
                other.start()
                time.sleep(1.5)
            times = probe(server.port)
            if other:
                other.kill()
                other.join()
            slow = times[int(len(times) * 0.99)] * 1000
            print(f"  {name}, {server.name}: {len(times)}  {times[len(times) // 2] * 1000:.2f} ms  {slow:.2f} ms   load {load()}", flush=True)
            if server is new:
                hold(f"next to {name}: a 99th percentile of {slow:.1f} ms is at most 50 ms", slow <= 50)


def usage(server):
    """The resident memory of a server in KiB, and the number of its descriptors."""
    with open(f"/proc/{server.process}/status", encoding="ascii") as status:
        memory = int(re.search(r"VmRSS:\s+(\d+)", status.read())[1])
    return memory, len(os.listdir(f"/proc/{server.process}/fd"))


def receive_exactly(connection, count):
    while count:
        part = connection.recv(min(count, 1 << 20))
        if not part:
            sys.exit(f"{count} bytes of the responses are missing")
        count -= len(part)


def ask_often(port, length):
    """Sends EACH requests at once on a connection of its own, and reads the responses."""
    with connect(port) as connection:
        connection.sendall(GET_ORDER * EACH)
        receive_exactly(connection, EACH * length)


def memory(_, new):
    connections = REQUESTS // EACH
    with connect(new.port) as connection:
        connection.sendall(GET_ORDER)
        length = len(connection.recv(1 << 20))
    with ThreadPoolExecutor(8) as pool:
        list(pool.map(lambda _: ask_often(new.port, length), range(connections // 10)))
        time.sleep(1)
        before, began = usage(new), time.monotonic()
        list(pool.map(lambda _: ask_often(new.port, length), range(connections)))
    took = time.monotonic() - began
    time.sleep(1)
    after = usage(new)
    print(f"{connections * EACH:,d} requests over {connections:,d} connections in {took:.0f} s   load {load()}", flush=True)
    hold(f"memory: {before[0]:,d} KiB, and {after[0]:,d} KiB afterwards", after[0] <= before[0] + 1024)
    hold(f"descriptors: {before[1]}, and {after[1]} afterwards", after[1] <= before[1])


def read_slowly(server):
    """The seconds in which a client gets large responses that it reads at SLOW_RATE, or None if it doesn't get all."""
    with connect(server.port) as connection:
        connection.sendall(GET_LARGE * LARGE_RESPONSES)
        connection.shutdown(socket.SHUT_WR)
        began, count = time.monotonic(), 0
        while part := connection.recv(SLOW_RATE // 10):
            count += len(part)
            time.sleep(len(part) / SLOW_RATE)
        return time.monotonic() - began if count >= 100_000 * LARGE_RESPONSES else None


def slow(old, new):
    with ThreadPoolExecutor() as pool:
        took = list(pool.map(read_slowly, (old, new)))
    for server, seconds in zip((old, new), took):
        print(f"{LARGE_RESPONSES} responses of 100 KB at {SLOW_RATE:,d} bytes a second, {server.name}: {seconds} s", flush=True)
    hold("slow: all responses came in at most 40 s", took[1] is not None and took[1] <= 40)


PARTS = {"rates": rates, "nginx": nginx, "probes": probes, "memory": memory, "slow": slow, "large": large}


def main():
    numbers, names = list(map(int, sys.argv[1:7])), sys.argv[7:]
    old, new = Server("old", *numbers[:3]), Server("new", *numbers[3:])
    for server in (old, new):
        register(server, "orders", ORDER)
        register(server, "large", LARGE)
    for name in names or PARTS:
        PARTS[name](old, new)
    print(f"{bounds.count(True)} of {len(bounds)} bounds hold; load {load()}")
    sys.exit(0 if all(bounds) else 1)


if __name__ == "__main__":
    main()
