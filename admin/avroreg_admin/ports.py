"""Whether a port of 127.0.0.1 is free, and who has it."""

import contextlib
import os
import socket
from collections.abc import Iterator
from pathlib import Path

LISTENING = "0A"


def is_free(port: int) -> bool:
    with socket.socket() as probe:
        probe.setsockopt(socket.SOL_SOCKET, socket.SO_REUSEADDR, 1)
        try:
            probe.bind(("127.0.0.1", port))
        except OSError:
            return False
    return True


def listeners(port: int) -> set[str]:
    """The inodes of the sockets that listen on this port."""
    rows = Path("/proc/net/tcp").read_text().splitlines()[1:] + Path("/proc/net/tcp6").read_text().splitlines()[1:]
    fields = [row.split() for row in rows]
    return {row[9] for row in fields if row[3] == LISTENING and int(row[1].rpartition(":")[2], 16) == port}


def holder(port: int) -> str:
    """The program that listens on this port, with its pid, as far as this user may see it."""
    wanted = {f"socket:[{inode}]" for inode in listeners(port)}
    for pid in filter(str.isdigit, os.listdir("/proc")):
        if wanted & set(links_of(f"/proc/{pid}/fd")):
            return f"{name_of(pid)} (pid {pid})"
    return "another program"


def links_of(folder: str) -> Iterator[str]:
    """What the links of a folder name. Those that vanish meanwhile are left out: processes end, and close files."""
    try:
        names = os.listdir(folder)
    except OSError:
        return
    for name in names:
        with contextlib.suppress(OSError):
            yield os.readlink(os.path.join(folder, name))


def name_of(pid: str) -> str:
    try:
        return Path(f"/proc/{pid}/comm").read_text().strip()
    except OSError:
        return "a program that has ended"
