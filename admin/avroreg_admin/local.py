"""A place of tests: everything is below a folder, and a child process serves, with the steps of a unit around it."""

import os
import signal
import subprocess
import sys
import time
from pathlib import Path

from .output import ERROR, Stop
from .place import Place

LOCAL_VARIABLE = "AVROREG_ADMIN_LOCAL"  # names the folder


class Local(Place):
    """A place of tests, below a folder. A child process serves, with the steps of the unit around it."""

    def __init__(self, name: str, root: Path):
        super().__init__(name, root)
        self.program = os.environ.get("AVROREG", "avroreg")
        self.pid_file = root / f"run/{self.unit}.pid"

    @property
    def owner(self) -> tuple[int, int]:
        return os.geteuid(), os.getegid()

    def is_enabled(self) -> bool:
        return (self.state / "enabled").exists()

    def enable(self) -> None:
        (self.state / "enabled").touch()

    def disable(self) -> None:
        (self.state / "enabled").unlink(missing_ok=True)

    def process(self) -> int | None:
        try:
            pid = int(self.pid_file.read_text())
            os.kill(pid, 0)
            state = Path(f"/proc/{pid}/stat").read_text().rpartition(")")[2].split()[0]
        except (OSError, ValueError):
            return None
        return None if state == "Z" else pid

    def _admin(self, command: str, **environment: str) -> subprocess.CompletedProcess:
        """Runs a command of the unit."""
        script = Path(__file__).resolve().parent.parent / "avroreg-admin"
        return subprocess.run([sys.executable, "-I", script, command, "--registry", self.name], capture_output=True, text=True, env=os.environ | environment)

    def start(self) -> None:
        if self.process():
            return
        guard = self._admin("guard")
        if guard.returncode != 0:
            raise Stop(ERROR, guard.stderr.strip(), "avroreg-admin doctor")
        self.launch_file.parent.mkdir(parents=True, exist_ok=True)
        self.launch_file.touch()
        with open(self.root / "server.log", "ab") as messages:
            server = subprocess.Popen([self.program, "serve", "--db", self.database, "--port", str(self.settings.port)], stdin=subprocess.DEVNULL,
                                      stdout=messages, stderr=messages, start_new_session=True)
        self.pid_file.write_text(str(server.pid))
        end = time.monotonic() + 60
        while self.ask("GET", "/config", timeout=2)[0] == 0:
            if server.poll() is not None or time.monotonic() > end:
                self._admin("settle", EXIT_CODE="exited", EXIT_STATUS=str(server.returncode))
                self.pid_file.unlink()
                raise Stop(ERROR, f"the server ended with status {server.returncode}: see {self.root}/server.log", "avroreg-admin doctor")
            time.sleep(0.02)
        started = self._admin("started", MAINPID=str(server.pid))
        if started.returncode != 0:
            raise Stop(ERROR, started.stderr.strip())

    def stop(self) -> None:
        pid = self.process()
        if pid is None:
            return
        self._admin("before-stop", MAINPID=str(pid))
        os.kill(pid, signal.SIGTERM)
        os.kill(pid, signal.SIGCONT)  # as systemd does: `before-stop` may have suspended it
        while self.process():
            try:
                os.waitpid(pid, os.WNOHANG)  # if it is a child of this process
            except ChildProcessError:
                pass
            time.sleep(0.02)
        self.pid_file.unlink(missing_ok=True)
        self._admin("settle", EXIT_CODE="killed", EXIT_STATUS="TERM")
