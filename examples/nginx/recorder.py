"""Sends odd messages to nginx, and records what nginx forwards. bypass.py and the gateway's fuzz.py judge what was recorded."""
import collections
import concurrent.futures
import functools
import re
import socket
import threading
import time
from collections.abc import Iterator
from typing import NamedTuple

BATCH = 96
SECONDS = 2  # to wait for a response


class Message(NamedTuple):
    """A message as avroreg would read it."""

    head: bytes
    body: bytes
    rest: bytes  # the bytes after the body, whose length is in the head

    def line(self) -> bytes:
        return self.head.split(b"\r\n")[0]

    def fault(self) -> str | None:
        """What is wrong with the message, whoever sends it."""
        if self.rest:
            return f"bytes after the message: {self.rest[:60]!r}"
        if re.search(rb"(?im)^transfer-encoding", self.head) or len(re.findall(rb"(?im)^content-length", self.head)) > 1:
            return "the length is given in two ways"
        if re.search(rb"(?im)^authorization", self.head):
            return "the password was forwarded"
        return None


class Recorder:
    """A server that replaces avroreg: reads a message and the bytes after it, and sends one response."""

    def __init__(self, port: int):
        self.messages: list[Message] = []
        self.opened, self.closed, self.lock = 0, 0, threading.Lock()
        self.listener = socket.create_server(("127.0.0.1", port), backlog=500)
        threading.Thread(target=self.accept, daemon=True).start()

    def response_to(self, head: bytes) -> bytes:
        """The body of the response."""
        return b"{}"

    def accept(self) -> None:
        while True:
            connection = self.listener.accept()[0]
            self.opened += 1
            threading.Thread(target=self.record, args=(connection,), daemon=True).start()

    def record(self, connection: socket.socket) -> None:
        got, body, rest, wanted = b"", b"", b"", 0
        connection.settimeout(20)
        try:
            while b"\r\n\r\n" not in got and (more := connection.recv(65536)):
                got += more
            head, _, body = got.partition(b"\r\n\r\n")
            length = re.search(rb"(?im)^content-length: *(\d+)", head)
            wanted = int(length[1]) if length else 0
            while len(body) < wanted and (more := connection.recv(65536)):
                body += more
            if got:  # nginx may close a connection on which it has sent nothing
                response = self.response_to(head)
                connection.sendall(b"HTTP/1.1 200 OK\r\nContent-Length: %d\r\nConnection: close\r\n\r\n%s" % (len(response), response))
                connection.shutdown(socket.SHUT_WR)
            rest = body[wanted:]
            while more := connection.recv(65536):
                rest += more
        except OSError:
            pass
        connection.close()
        with self.lock:
            if got:
                self.messages.append(Message(got.partition(b"\r\n\r\n")[0], body[:wanted], rest))
            self.closed += 1

    def take_messages(self) -> list[Message]:
        """Waits until nginx has closed the connections. Returns the messages since the last call."""
        for _ in range(1200):
            time.sleep(0.05)
            if self.closed == self.opened:
                break
        with self.lock:
            messages, self.messages = self.messages, []
        return messages


def send(port: int, message: bytes) -> list[bytes]:
    """Sends a message, and waits for the end of the responses. Returns their statuses."""
    got = b""
    try:
        with socket.create_connection(("127.0.0.1", port), timeout=60) as connection:
            connection.sendall(message)
            connection.settimeout(SECONDS)
            while b"Connection: close" not in got and (more := connection.recv(65536)):
                got += more
    except OSError:
        pass
    return re.findall(rb"HTTP/1\.1 (\d+)", got)


def send_all(port: int, messages: list[bytes], recorder: Recorder, statuses: collections.Counter[bytes]) -> Iterator[list[Message]]:
    """Sends the messages in batches, and counts the statuses. Yields what was recorded after each batch, and what came late."""
    with concurrent.futures.ThreadPoolExecutor(BATCH) as pool:
        for at in range(0, len(messages) + BATCH, BATCH):
            batch = messages[at:at + BATCH]
            for found in pool.map(functools.partial(send, port), batch):
                statuses.update(found or [b"none"])
            if not batch:
                time.sleep(1)  # for messages that nginx forwards late
            yield recorder.take_messages()
