"""A registry of a test, in a folder of its own: commands run in forks, and a child process serves. AVROREG names the program."""

import contextlib
import io
import os
import random
import shutil
import signal
import sys
import tempfile
import time
from collections.abc import Callable
from pathlib import Path

sys.path.insert(0, str(Path(__file__).resolve().parent.parent))

from avroreg_admin import main, marking, places, ports, program  # noqa: E402

SCHEMA = '{{"type":"fixed","name":"{}","size":1}}'
MEMORY = "/dev/shm" if os.access("/dev/shm", os.W_OK) else None


def free_port() -> int:
    """A port that no client's connection gets: the server is down for a while in between."""
    return next(port for port in iter(lambda: random.randrange(20000, 32000), None) if ports.is_free(port))


def forked(words: list[str], prepare: Callable[[], None] = lambda: None) -> tuple[int, str]:
    """Runs a command in a fork. Returns its status, and what it printed. `prepare` runs in the fork before it."""
    with tempfile.TemporaryFile() as out:
        pid = os.fork()
        if pid == 0:
            run_and_exit(words, out.fileno(), prepare)
        status = os.waitstatus_to_exitcode(os.waitpid(pid, 0)[1])
        out.seek(0)
        return status, out.read().decode(errors="replace")


def run_and_exit(words: list[str], out: int, prepare: Callable[[], None]) -> None:
    """The fork. It has no terminal, and ends without the parent's cleaning up."""
    status = 70
    try:
        os.setsid()
        with open(os.devnull) as nothing:
            os.dup2(nothing.fileno(), 0)
        sys.stdin = open(0)
        for number in (1, 2):
            os.dup2(out, number)
        sys.stdout, sys.stderr = (io.TextIOWrapper(io.FileIO(number, "w", closefd=False), write_through=True) for number in (1, 2))
        prepare()
        sys.argv = ["avroreg-admin", *words]
        status = main.main()
    except BaseException as error:
        print(f"traceback: {type(error).__name__}: {error}", file=sys.stderr)
    os._exit(status)


def listing_of_copy(file: Path | str, what: str) -> list:
    """A listing of a copy of a registry's file, since avroreg changes what it opens."""
    with tempfile.TemporaryDirectory(dir=MEMORY) as folder:
        for suffix in ("", "-wal"):
            if Path(f"{file}{suffix}").exists():
                shutil.copyfile(f"{file}{suffix}", f"{folder}/registry.db{suffix}")
        return program.listing(os.environ["AVROREG"], f"{folder}/registry.db", what)


def state_of(file: Path | str) -> dict:
    return {what: listing_of_copy(file, what) for what in ("subjects", "versions", "schemas")}


class Registry:
    """A registry with three schemas in its backup, and with more registrations, deletions, levels and modes after it.

    `reset` gives the same registry again: its files are copied from a template.
    """

    def __init__(self, root: Path):
        self.root, self.template = root / "place", root / "template"
        os.environ["AVROREG"] = os.path.realpath(os.environ["AVROREG"])
        self.root.mkdir()
        self.use()
        self.fill()
        self.place.stop()
        shutil.copytree(self.root, self.template)
        self.old = state_of(self.template / "var/lib/avroreg/registry.db")
        self.backup = state_of(next((self.template / "var/lib/avroreg-backup").glob("registry-*.db")))

    def use(self) -> None:
        """The commands of this process are for this registry."""
        os.environ["AVROREG_ADMIN_LOCAL"] = str(self.root)

    @property
    def place(self) -> places.Local:
        return places.place_of("default")

    @property
    def files(self) -> dict[str, bytes]:
        """The bytes of F and F-wal, as far as they are there."""
        return {name: (self.place.folder / name).read_bytes() for name in ("registry.db", "registry.db-wal") if (self.place.folder / name).exists()}

    def write(self, method: str, path: str, body=None):
        status, value = self.place.ask(method, path, body)
        if status != 200:
            raise AssertionError(f"{method} {path} got {status} {value}")
        return value

    def register(self, name: str) -> int:
        """Registers a schema of this name, and returns its id."""
        return self.write("POST", f"/subjects/s-{name}/versions", {"schema": SCHEMA.format(name)})["id"]

    def fill(self) -> None:
        self.run("init", "--port", str(free_port()))
        self.write("PUT", "/config", {"compatibility": "NONE"})
        for name in ("a", "b", "c"):
            self.register(name)
        self.run("backup")
        for name in ("d", "e", "f"):
            self.register(name)
        self.write("DELETE", "/subjects/s-a")
        self.write("PUT", "/config/s-b", {"compatibility": "FULL"})
        self.write("PUT", "/mode/s-c", {"mode": "READONLY"})

    def run(self, *words: str, status: int = 0, prepare: Callable[[], None] = lambda: None) -> str:
        """Runs a command, which has to end with this status. Returns what it printed."""
        got, printed = forked(list(words), prepare)
        if got != status:
            raise AssertionError(f"{' '.join(words)} ended with {got}, not {status}: {printed}")
        return printed

    def run_any(self, *words: str, prepare: Callable[[], None] = lambda: None) -> tuple[int, str]:
        """Runs a command. Returns its status, and what it printed."""
        return forked(list(words), prepare)

    def reset(self, is_served: bool = False) -> None:
        """The template again, stopped or served. Its file is another inode, so it is marked anew."""
        self.kill_servers()
        shutil.rmtree(self.root)
        shutil.copytree(self.template, self.root, symlinks=True)
        place = self.place
        marking.put(str(place.database), place.registry["place"])
        self.before, self.is_served = self.files, is_served
        if is_served:
            place.start()

    def servers(self) -> list[int]:
        """The servers of files of this folder: this test started them."""
        found = []
        for folder in Path("/proc").glob("[0-9]*"):
            with contextlib.suppress(OSError):
                words = (folder / "cmdline").read_bytes().split(b"\0")
                if b"serve" in words and any(word.startswith(os.fsencode(self.root)) for word in words):
                    found.append(int(folder.name))
        return found

    def kill_servers(self) -> None:
        for pid in self.servers():
            os.kill(pid, signal.SIGKILL)
            with contextlib.suppress(ChildProcessError):
                os.waitpid(pid, 0)
        while self.servers():
            time.sleep(0.01)
