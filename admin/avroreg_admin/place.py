"""Where a registry is: its paths, its user, its settings, and requests to its server."""

import http.client
import json
import os
import pwd
import time
from pathlib import Path

from . import settings
from .files import read_json, write_json
from .hands import Hands
from .output import ERROR, Stop

DEFAULT = "default"
USER = "avroreg"
ANSWER_SECONDS = 20


class Place:
    """A registry's paths, its user, and its server. `root` is / or a folder of a test."""

    kind = "service"

    def __init__(self, name: str, root: Path = Path("/")):
        self.name, self.root = name, root
        suffix = "" if name == DEFAULT else f"-{name}"
        self.unit = "avroreg" if name == DEFAULT else f"avroreg@{name}"
        self.settings_file = root / f"etc/default/avroreg{suffix}"
        self.folder = root / f"var/lib/avroreg{suffix}"
        self.backups = root / f"var/lib/avroreg-backup{suffix}"
        self.metrics = root / "var/lib/avroreg-metrics"
        self.metrics_file = self.metrics / f"avroreg{suffix}.prom"
        self.seen_file = self.metrics / f"seen{suffix}.json"  # of watch: the greatest id, and a header of the log
        self.state = root / f"var/lib/avroreg-admin/{name}"  # root's: registry.json, job.json, history.jsonl
        self.run_folder = root / f"run/avroreg-admin/{name}"  # root's: paused
        self.lock_file = self.state / "lock"
        self.registry_file = self.state / "registry.json"
        self.job_file = self.state / "job.json"
        self.access_log = root / "var/log/nginx" / f"avroreg{suffix}.log"
        self.database = self.folder / "registry.db"
        self.log = self.folder / "registry.db-wal"
        self.mark_file = self.folder / "registry.mark"
        self.jobs = self.folder / "jobs"  # the registry's user: drafts and old files of jobs
        self.paused_file = self.run_folder / "paused"
        self.launch_file = root / f"run/avroreg/{self.unit}/launched"  # the unit makes it before the program runs
        self.program = "/usr/bin/avroreg"
        self._hands: Hands | None = None

    @property
    def settings(self) -> settings.Settings:
        return settings.read(self.settings_file)

    @property
    def url(self) -> str:
        return f"http://127.0.0.1:{self.settings.port}"

    @property
    def registry(self) -> dict | None:
        """registry.json: the place's id, the folder and the user; None before `init`."""
        return read_json(self.registry_file)

    @property
    def owner(self) -> tuple[int, int]:
        """The uid and the gid of the registry's user."""
        try:
            user = pwd.getpwnam(USER)
        except KeyError:
            raise Stop(ERROR, f"there is no user {USER}: install avroreg first") from None
        return user.pw_uid, user.pw_gid

    @property
    def hands(self) -> Hands:
        if self._hands is None:
            self._hands = Hands(*self.owner)
        return self._hands

    def close(self) -> None:
        if self._hands is not None:
            self._hands.close()
            self._hands = None

    def note(self, place_id: str) -> None:
        """Writes registry.json. The mark has the same id."""
        write_json(self.registry_file, {"place": place_id, "folder": str(self.folder), "unit": self.unit, "kind": self.kind,
                                        "made": int(time.time())})

    # The server. Each kind of place has its own.

    def process(self) -> int | None:
        """The pid of the server, or None."""
        raise NotImplementedError

    def server_pid(self, main: int) -> int:
        """The server's process, if this is the main process of its unit."""
        return main

    def start(self) -> None:
        """Starts the server, with the guard, and waits until it responds. Raises Stop if it doesn't start."""
        raise NotImplementedError

    def stop(self) -> None:
        """Stops the server, and waits for it to end."""
        raise NotImplementedError

    def is_enabled(self) -> bool:
        """Whether a boot starts the server."""
        return True

    def enable(self) -> None:
        """Starts the timers, and has each boot start the server."""

    def disable(self) -> None:
        """Stops the timers, and has no boot start the server."""

    def reload_units(self) -> None:
        """After a unit's file was changed."""

    @property
    def units(self) -> list[str]:
        """The server's unit and its timers."""
        instance = "" if self.name == DEFAULT else f"@{self.name}"
        return [f"avroreg{instance}.service", f"avroreg-backup{instance}.timer", f"avroreg-watch{instance}.timer"]

    def ask(self, method: str, path: str, body=None, timeout: float = ANSWER_SECONDS) -> tuple[int, object]:
        """The status and the JSON value of a response of the server; (0, None) if there is none."""
        return ask(http.client.HTTPConnection("127.0.0.1", self.settings.port, timeout=timeout), method, path, body)


def ask(connection: http.client.HTTPConnection, method: str, path: str, body, fields: dict | None = None) -> tuple[int, object]:
    """Sends one request, and closes the connection."""
    try:
        connection.request(method, path, None if body is None else json.dumps(body), {"Connection": "close"} | (fields or {}))
        response = connection.getresponse()
        return response.status, json.loads(response.read() or b"null")
    except (OSError, http.client.HTTPException, ValueError, RecursionError):
        return 0, None
    finally:
        connection.close()
