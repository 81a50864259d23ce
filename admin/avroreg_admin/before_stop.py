"""Before each stop: if somebody removed the registry's file or its log, save what the server still has open. A unit of systemd runs this, as root."""

import os

from . import removed
from .output import DONE


def add(_parser) -> None:
    pass


def run(context) -> int:
    """Without MAINPID, the server has ended by itself."""
    pid = int(os.environ.get("MAINPID") or 0)
    if not pid or context.place.registry is None:
        return DONE
    if removed.is_suspended(pid):
        return DONE  # `rescue` has saved its files, and stops it now
    pid = context.place.server_pid(pid)
    names = removed.missing(context.place, pid)
    if names:
        context.output.warn(f"{' and '.join(names)} was removed from {context.place.folder} while avroreg runs")
        context.output.ok(f"saved what it had open: {removed.save(context.place, pid)}")
    return DONE
