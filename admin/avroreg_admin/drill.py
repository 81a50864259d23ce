"""Prove that a backup can be restored: serve a copy next to the running registry, and compare all contents.

Responses also differ after writes that are newer than the backup. Without a name, it takes the newest one.
"""

import os
import socket
import subprocess
import tempfile
import time

from . import archive, checked_copy, contents, drafting
from .hands import task
from .output import DONE, ERROR, NO, Stop

START_SECONDS = 60


def add(parser) -> None:
    parser.add_argument("backup", nargs="?", metavar="BACKUP", help="a name from `avroreg-admin backups`, or a file that the registry's user can read")


def free_port() -> int:
    with socket.socket() as probe:
        probe.bind(("127.0.0.1", 0))
        return probe.getsockname()[1]


def is_served(registry: contents.Registry, server: subprocess.Popen) -> bool:
    """Waits until the server responds."""
    end = time.monotonic() + START_SECONDS
    while time.monotonic() < end and server.poll() is None:
        try:
            registry.get("/config")
            return True
        except Stop:
            time.sleep(0.05)
    return False


@task
def drill(avroreg: str, backup: str, folder: str, url: str) -> dict:
    """Audits a copy of the backup, serves it, and compares it with the running registry."""
    if not os.path.isfile(backup):
        raise Stop(NO, f"there is no backup {backup}", "avroreg-admin backups")
    drafting.remove_left(folder)
    with tempfile.TemporaryDirectory(prefix=f"{drafting.PREFIX}{os.getpid()}-", dir=folder) as made:
        served = os.path.join(made, "registry.db")
        checked_copy.plain_copy(backup, served)
        if fault := checked_copy.audited(avroreg, served):
            raise Stop(NO, f"{backup} can't be restored: {fault}", "avroreg-admin backups --verify")
        port = free_port()
        server = subprocess.Popen(["setpriv", "--pdeathsig", "KILL", avroreg, "serve", "--db", served, "--port", str(port)], stdin=subprocess.DEVNULL,
                                  stdout=subprocess.DEVNULL, stderr=subprocess.DEVNULL)
        try:
            restored = contents.Registry(f"http://127.0.0.1:{port}", "the restored copy")
            if not is_served(restored, server):
                raise Stop(ERROR, f"the copy of {backup} isn't served")
            count, differing = contents.compare(restored, contents.Registry(url, "the running registry"))
        finally:
            server.kill()
            server.wait()
    return {"compared": count, "differing": differing}


def chosen(context) -> str:
    """The path of the backup: a name in the archive, a file, or the newest one."""
    place, name = context.place, context.options.backup
    if name is None:
        newest = place.hands(archive.listed, folder=place.backups)["newest"]
        if newest is None:
            raise Stop(NO, "there is no good backup", "avroreg-admin backup")
        return str(place.backups / newest)
    return name if "/" in name else str(place.backups / name)


def run(context) -> int:
    place, backup = context.place, chosen(context)
    context.agree([("drill", f"with a copy of {backup}")], asks=False)
    found = place.hands(drill, avroreg=place.program, backup=os.path.abspath(backup), folder=place.backups, url=place.url)
    context.output.data(found)
    for text in found["differing"]:
        context.output.warn(text)
    context.output.line("warn" if found["differing"] else "ok", f"{found['compared']} responses compared, {len(found['differing'])} differ")
    return NO if found["differing"] else DONE
