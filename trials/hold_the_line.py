"""Measures how long the clients of a server wait. hold_the_line.sh runs it.

    python3 trials/hold_the_line.py PORT [turns|uploads]..
"""
import http.client
import os
import select
import subprocess
import sys
import tempfile
import time

HOST = "127.0.0.1"
TIMES = int(os.environ.get("TIMES", "100"))  # requests of each of the two clients, and uploads of a large body
LARGE = 5_000_000


class Kept:
    """A client that keeps its connection, like the connection pools of well-known clients. If the server closed the
    connection, the client connects again, even if it notices this only after it sent a request."""

    def __init__(self, port):
        self.connection = http.client.HTTPConnection(HOST, port, timeout=60)

    def get_subjects(self):
        if self.connection.sock and select.select([self.connection.sock], [], [], 0)[0]:
            self.connection.close()
        for is_second in (False, True):
            try:
                self.connection.request("GET", "/subjects")
                answer = self.connection.getresponse()
                body = answer.read()
                assert (answer.status, body) == (200, b"[]"), (answer.status, body)
                return
            except ConnectionError:
                self.connection.close()
                if is_second:
                    raise

    def close(self):
        self.connection.close()


def new_client(port):
    """Confluent's client if it is installed, else `Kept`."""
    try:
        from confluent_kafka.schema_registry import SchemaRegistryClient
    except ImportError:
        return Kept(port)
    return SchemaRegistryClient({"url": f"http://{HOST}:{port}"})


def wait_time(client):
    """How long a client waits for its response."""
    began = time.monotonic()
    try:
        client.get_subjects()
    except TimeoutError:
        sys.exit(f"a client had no response after {time.monotonic() - began:.0f} s")
    return time.monotonic() - began


def check_times(name, times, most):
    """Prints the longest wait, and exits if it is over `most` seconds."""
    print(f"{name}: {len(times)} responses, the slowest after {max(times):.2f} s", flush=True)
    if max(times) > most:
        sys.exit(f"{name}: {max(times):.2f} s is longer than {most} s")


def measure_turns(port):
    """Two clients of one process send requests in turn, each on its kept connection."""
    clients = [new_client(port), new_client(port)]
    check_times(f"two of {type(clients[0]).__name__} in turn", [wait_time(client) for _ in range(TIMES) for client in clients], 0.5)


def measure_uploads(port):
    """curl sends a body that is too large, without waiting for "100 Continue". It must receive the response."""
    times = []
    with tempfile.NamedTemporaryFile() as body:
        body.write(b" " * LARGE)
        body.flush()
        for _ in range(TIMES):
            began = time.monotonic()
            done = subprocess.run(
                ["curl", "-s", "-w", "%{http_code}", "-H", "Expect:", "--data-binary", f"@{body.name}",
                 f"http://{HOST}:{port}/subjects/s/versions"], capture_output=True)
            times.append(time.monotonic() - began)
            answer = (done.returncode, done.stdout)
            if answer != (0, b'{"error_code":413,"message":"Body too large"}413'):
                sys.exit(f"a body of {LARGE} bytes: curl ended with {answer}")
    check_times(f"413 for a body of {LARGE} bytes", times, 2)


PARTS = {"turns": measure_turns, "uploads": measure_uploads}
port, *names = sys.argv[1:]
for name in names or PARTS:
    PARTS[name](int(port))
