"""After each end of the server: note how it ended. A unit of systemd runs this. It never opens the registry's file."""

import os

from . import marking
from .output import DONE

KILLED = 128  # podman ends with this and the signal's number if the program was killed


def add(_parser) -> None:
    pass


def has_exited() -> bool:
    """Whether the program ended by itself."""
    status = os.environ.get("EXIT_STATUS", "")
    return os.environ.get("EXIT_CODE") == "exited" and not (status.isdigit() and int(status) >= KILLED)


def run(context) -> int:
    """If the guard refused the start, the program never ran, and the mark stays as it is."""
    place = context.place
    try:
        os.unlink(place.launch_file)
    except FileNotFoundError:
        return DONE
    try:
        place.hands(marking.note_ended, database=place.database, has_exited=has_exited())
    except OSError as failure:
        if not marking.is_full(failure):
            raise
    return DONE
