"""After each start: wait until the server responds, and note what it serves. A unit of systemd runs this."""

import os
import socket
import time

from . import marking
from .output import DONE, ERROR, Stop, error

PAUSE_SECONDS = 0.05
RESPONSE_SECONDS = 10


def add(_parser) -> None:
    pass


def responds(port: int) -> bool:
    try:
        with socket.create_connection(("127.0.0.1", port), timeout=RESPONSE_SECONDS) as connection:
            connection.sendall(b"GET /config HTTP/1.1\r\nHost: localhost\r\nConnection: close\r\n\r\n")
            return connection.recv(9) == b"HTTP/1.1 "
    except OSError:
        return False


def is_alive(pid: int) -> bool:
    try:
        os.kill(pid, 0)
    except ProcessLookupError:
        return False
    return True


def run(context) -> int:
    """systemd kills this after the unit's TimeoutStartSec."""
    place = context.place
    pid = int(os.environ["MAINPID"])
    while not responds(place.settings.port):
        if not is_alive(pid):
            raise Stop(ERROR, "avroreg ended before it responded")
        time.sleep(PAUSE_SECONDS)
    launch = os.environ.get("INVOCATION_ID") or str(pid)
    if not place.hands(marking.note_started, database=place.database, place=place.registry["place"], launch=launch, pid=place.server_pid(pid)):
        error("warning: the disk is full, so the mark wasn't renewed")
    return DONE
