"""Places whose server is a unit of systemd: a service, or a container of podman."""

import os
import subprocess
from pathlib import Path

from . import mark, marking
from .output import ERROR, Stop
from .place import Place


class Service(Place):
    """A unit of systemd: avroreg.service, or avroreg@NAME.service."""

    def show(self, name: str, unit: str | None = None) -> str:
        return subprocess.run(["systemctl", "show", "-P", name, unit or self.unit], capture_output=True, text=True).stdout.strip()

    def systemctl(self, *arguments: str) -> subprocess.CompletedProcess:
        return subprocess.run(["systemctl", *arguments], capture_output=True, text=True)

    def process(self) -> int | None:
        shown = self.show("MainPID")
        return int(shown) or None if shown.isdigit() else self.marked_process()

    def marked_process(self) -> int | None:
        """The pid in the mark, if that process is avroreg: a unit's sandbox doesn't reach systemd."""
        found = self.hands(marking.read, database=self.database) or {}
        try:
            is_served = found["state"] == mark.RUNNING and Path(f"/proc/{found['pid']}/comm").read_text() == "avroreg\n"
        except (KeyError, OSError):
            return None
        return found["pid"] if is_served else None

    def start(self) -> None:
        if self.show("ActiveState") in ("activating", "deactivating"):
            self.systemctl("stop", self.unit)  # systemd still tries a start that was refused: the end of that one may look like a start
        self.systemctl("reset-failed", self.unit)
        if self.systemctl("start", self.unit).returncode != 0 or self.process() is None:
            journal = subprocess.run(["journalctl", "-u", self.unit, "-o", "cat", "-n", "20"], capture_output=True, text=True).stdout
            said = [line for line in journal.splitlines() if line.startswith(("avroreg", "guard"))]
            raise Stop(ERROR, f"{self.unit} doesn't start: {said[-1] if said else 'see journalctl -u ' + self.unit}", "avroreg-admin doctor")

    def stop(self) -> None:
        result = self.systemctl("stop", self.unit)
        if result.returncode != 0:
            raise Stop(ERROR, f"{self.unit} doesn't stop: {result.stderr.strip()}")

    def is_enabled(self) -> bool:
        return all(self.systemctl("is-enabled", "--quiet", unit).returncode == 0 for unit in self.units)

    def reload_units(self) -> None:
        self.systemctl("daemon-reload")

    def is_started_at_boot(self) -> bool:
        return self.systemctl("is-enabled", "--quiet", self.units[0]).returncode == 0

    def enable(self) -> None:
        result = self.systemctl("enable", "--quiet", self.units[0])
        if result.returncode == 0:
            result = self.systemctl("enable", "--quiet", "--now", *self.units[1:])
        if result.returncode != 0:
            raise Stop(ERROR, f"systemd enables no units: {result.stderr.strip()}")

    def disable(self) -> None:
        self.systemctl("disable", "--quiet", self.units[0])
        self.systemctl("disable", "--quiet", "--now", *self.units[1:])


class Container(Service):
    """A unit of systemd that runs avroreg in a container of podman: avroreg-container@NAME.service. It shares the host's network."""

    kind = "container"

    def __init__(self, name: str, root: Path = Path("/")):
        super().__init__(name, root)
        self.unit = f"avroreg-container@{name}"
        self.launch_file = root / f"run/avroreg/{self.unit}/launched"
        self.container = f"avroreg-{name}"

    @property
    def units(self) -> list[str]:
        return [f"{self.unit}.service", *super().units[1:]]

    def process(self) -> int | None:
        if os.geteuid() != 0:
            return self.marked_process()
        shown = subprocess.run(["podman", "inspect", "-f", "{{.State.Pid}}", self.container], capture_output=True, text=True).stdout.strip()
        return int(shown) or None if shown.isdigit() else None

    def server_pid(self, main: int) -> int:
        return self.process() or main
