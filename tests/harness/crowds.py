"""Sends requests to a server that has other clients: slow, greedy, idle, half-closed or many ones."""

import contextlib
import os
import resource
import socket
import threading
import time

from .clients import receive_all, receive_response, response_length, send_request
from .program import CaseError

REPETITIONS = 1000
IDLE_CLIENTS = 1000
HALF_CLOSED_CLIENTS = 300
# The time limit of one response, whatever other clients do. A server that waits for one of them takes longer.
PATIENCE_SECONDS = 5
# The clients of a crowd for which a server has no place, and the most connections that it closes for them.
LATECOMERS = 4
MAX_CLOSED = 8
CROWD_SECONDS = 120
# A server without a descriptor for a waiting client tries again now and then. If it tries all the time, it uses more time.
STARVING_SECONDS = 1
MAX_CPU_SECONDS = 0.05


def check_equal_responses(received, count):
    """Checks that the bytes are this number of whole equal responses. Raises CaseError if they aren't."""
    response = received[: response_length(received) or 0]
    if received != response * count:
        raise CaseError(f"instead of {count} responses of {len(response)} bytes, {len(received)} bytes arrived")


def send_alternately(connect, requests):
    """Sends the requests from two clients in turn, each over its own connection, and returns the bytes of all responses."""
    received = b""
    with connect() as first, connect() as second:
        for number, request in enumerate(requests):
            client = (first, second)[number % 2]
            client.settimeout(PATIENCE_SECONDS)
            client.sendall(request)
            received += receive_response(client)
    return received


@contextlib.contextmanager
def dripping(clients, request):
    """The client sends a byte of its request a second. After all others, it sends the rest, and gets its response."""
    (client,) = clients
    rest, ends = list(request), threading.Event()

    def drip():
        while len(rest) > 1 and not ends.is_set():
            client.sendall(bytes([rest.pop(0)]))
            ends.wait(1)

    thread = threading.Thread(target=drip)
    thread.start()
    try:
        yield
    finally:
        ends.set()
        thread.join()
    client.sendall(bytes(rest))
    check_equal_responses(receive_response(client), 1)


@contextlib.contextmanager
def mute(clients, request):
    """The client sends its request 1,000 times at once, and reads no response."""
    (client,) = clients
    client.sendall(request * REPETITIONS)
    yield


@contextlib.contextmanager
def pipelining(clients, request):
    """The client sends its request 1,000 times at once, and reads all responses as fast as they come."""
    (client,) = clients
    received = []
    client.sendall(request * REPETITIONS)
    client.shutdown(socket.SHUT_WR)
    thread = threading.Thread(target=lambda: received.append(receive_all(client)))
    thread.start()
    try:
        yield
    finally:
        thread.join()
    check_equal_responses(b"".join(received), REPETITIONS)


@contextlib.contextmanager
def idle(clients, request):
    """Each client sends its request, and a second one after all others."""
    for is_second in (False, True):
        for client in clients:
            client.sendall(request)
            check_equal_responses(receive_response(client), 1)
        if not is_second:
            yield


@contextlib.contextmanager
def half_closed(clients, request):
    """Each client sends its request, a part of it or nothing, and shuts down its sending side. It reads after all others."""
    parts = [request, request[:-1], b""]
    for number, client in enumerate(clients):
        client.sendall(parts[number % 3])
        client.shutdown(socket.SHUT_WR)
    yield
    for number, client in enumerate(clients):
        received = receive_all(client)
        check_equal_responses(received, 1 if number % 3 == 0 else 0)


# The kinds of other clients: their number, and what they do.
KINDS = {
    "dripping": (1, dripping),
    "mute": (1, mute),
    "pipelining": (1, pipelining),
    "idle": (IDLE_CLIENTS, idle),
    "half-closed": (HALF_CLOSED_CLIENTS, half_closed),
}


def send_beside(connect, kind, requests):
    """Sends each request but the first from a client of its own, next to clients of a kind, which send the first request.
    Returns the bytes of all responses but theirs. Raises CaseError if theirs aren't the expected ones."""
    count, behave = KINDS[kind]
    received = b""
    with contextlib.ExitStack() as stack:
        others = [stack.enter_context(connect()) for _ in range(count)]
        with behave(others, requests[0]):
            for request in requests[1:]:
                received += send_patiently(connect(), request)
    return received


def send_patiently(client, request):
    """Sends a request, and returns the bytes of the response. Raises CaseError if it doesn't come in time."""
    client.settimeout(PATIENCE_SECONDS)
    try:
        return send_request(client, request)
    except TimeoutError:
        raise CaseError(f"next to other clients, no response came within {PATIENCE_SECONDS} s") from None


def cpu_seconds(process):
    """Returns the processor time that a process has used."""
    with open(f"/proc/{process.pid}/stat", encoding="ascii") as stat:
        fields = stat.read().rsplit(")", 1)[1].split()
    return (int(fields[11]) + int(fields[12])) / os.sysconf("SC_CLK_TCK")


def leave_descriptors(server, count):
    """Lets a server open only this number of further descriptors. Returns its former limits."""
    last = max(int(name) for name in os.listdir(f"/proc/{server.pid}/fd"))
    limits = resource.prlimit(server.pid, resource.RLIMIT_NOFILE)
    resource.prlimit(server.pid, resource.RLIMIT_NOFILE, (last + 1 + count, limits[1]))
    return limits


def raise_limit(connections):
    """Lets this process, and the servers that it starts, open a descriptor for each of these connections."""
    soft, hard = resource.getrlimit(resource.RLIMIT_NOFILE)
    needed = connections + 2 * IDLE_CLIENTS
    if hard not in (resource.RLIM_INFINITY, max(hard, needed)):
        raise CaseError(f"this case needs {needed} file descriptors, and `ulimit -Hn` is {hard}")
    if soft not in (resource.RLIM_INFINITY, max(soft, needed)):
        resource.setrlimit(resource.RLIMIT_NOFILE, (needed, hard))


def send_in_crowd(connect, server, request, places, lacks_descriptors):
    """Sends the request from more clients than the server has places for, and again from each whose connection is still open.
    Each client keeps its connection. Returns the last response.

    Raises CaseError unless the server closes connections only for the latecomers, and those that were idle longest.
    """
    end = time.monotonic() + CROWD_SECONDS
    with contextlib.ExitStack() as stack:
        clients = []
        for _ in range(places + LATECOMERS):
            if time.monotonic() > end:
                raise CaseError(f"in {CROWD_SECONDS} s, only {len(clients)} clients had a response")
            clients.append(stack.enter_context(connect()))
            clients[-1].settimeout(PATIENCE_SECONDS)
            clients[-1].sendall(request)
            response = receive_response(clients[-1])
            check_equal_responses(response, 1)
            if lacks_descriptors and len(clients) == 1:
                leave_descriptors(server, places - 1)
        closed = [number for number, client in enumerate(clients) if not asks_again(client, request)]
    if not 0 < len(closed) <= MAX_CLOSED or closed != list(range(len(closed))):
        raise CaseError(f"of {len(clients)} connections, the server closed those at {closed}")
    return response


def asks_again(client, request):
    """Sends a request over a kept connection. Returns whether a response comes, and not the end of the connection."""
    try:
        client.sendall(request)
        return receive_response(client) != b""
    except ConnectionError:
        return False


def connect_without_descriptor(connect, server, requests):
    """Sends the first request twice and the second one once, each from its own client. The server has no descriptor for the
    second client until several accepts have failed. It can't close the connection of the first one, whose second request is
    still arriving. Returns the bytes that both receive, and the line that the server prints to standard error."""
    with connect() as first:
        first.sendall(requests[0])
        received = receive_response(first)
        first.sendall(requests[0][:-1])
        limits = leave_descriptors(server, 0)
        with connect() as second:
            before = cpu_seconds(server)
            second.sendall(requests[1])
            second.shutdown(socket.SHUT_WR)
            error = server.stderr.readline()
            time.sleep(STARVING_SECONDS)
            used = cpu_seconds(server) - before
            resource.prlimit(server.pid, resource.RLIMIT_NOFILE, limits)
            received += receive_all(second)
        received += send_request(first, requests[0][-1:])
    if used > MAX_CPU_SECONDS:
        raise CaseError(f"without a descriptor for a client, the server used {used:.2f} s of processor time in {STARVING_SECONDS} s")
    return received, error
