"""Jobs: commands of several steps that go on after a kill. And the lock of a registry.

A job has a file, job.json. Each step has an effect, and a test that reads the world, not the file:
is it done? `continue` runs the first step whose test says no, and those after it. `undo` takes back
the steps that were done, the last one first. While the file exists, the guard starts nothing but what
the job itself put in place.
"""

import contextlib
import fcntl
import json
import os
import signal
import time
from collections.abc import Callable
from dataclasses import asdict, dataclass, field

from .files import append_line, read_json, remove, write_json
from .output import BUSY, ERROR, NO, STOPPED, Stop
from .places import Place

VERSION = 1
READABLE_VERSIONS = (1,)  # a release also reads the files of the release before


@dataclass
class Job:
    """The contents of job.json. `facts` is the command's own: values of JSON that later steps need."""

    command: str
    id: str
    person: str
    begun: float
    facts: dict = field(default_factory=dict)
    step: str = ""  # the last step that was finished, for messages
    is_undone: bool = False  # `undo` has begun: `continue` is refused
    version: int = VERSION

    def save(self, place: Place) -> None:
        write_json(place.job_file, asdict(self))


@dataclass(frozen=True)
class Step:
    """A step of a job. `effect` may run again after a kill in its middle. It returns the text to print."""

    name: str
    effect: Callable[[], str]
    is_done: Callable[[], bool]
    undo: Callable[[], None] | None = None  # None: nothing to take back
    ignores_hangup: bool = False  # a lost terminal doesn't end the job before this step


def new_job(place: Place, command: str, person: str, facts: dict) -> Job:
    """Begins a job. Its id is the time, or a second later if a job of this second has ended: each one has its own folder."""
    now = time.time()
    ended = {entry.get("id") for entry in history(place)}
    while (name := time.strftime("%Y%m%dT%H%M%SZ", time.gmtime(now))) in ended:
        now += 1
    job = Job(command, name, person, now, facts)
    job.save(place)
    return job


def history(place: Place) -> list[dict]:
    """The entries of history.jsonl. A killed command may have left half a line."""
    try:
        lines = (place.state / "history.jsonl").read_text(encoding="utf-8").splitlines()
    except FileNotFoundError:
        return []
    entries = []
    for line in lines:
        with contextlib.suppress(ValueError):
            entries.append(json.loads(line))
    return [entry for entry in entries if isinstance(entry, dict)]


def open_job(place: Place) -> Job | None:
    """The unfinished job, or None."""
    found = read_json(place.job_file)
    if found is None:
        return None
    if found.get("version") not in READABLE_VERSIONS:
        raise Stop(ERROR, f"{place.job_file} is of another release: install the release that began this job")
    return Job(**found)


def refuse_open_job(place: Place) -> None:
    """Each command that changes something calls this first."""
    job = open_job(place)
    if job is not None:
        raise Stop(NO, f"{job.command} of {clock(job.begun)} by {job.person} is unfinished", "avroreg-admin continue", "avroreg-admin undo")


def clock(seconds: float) -> str:
    return time.strftime("%Y-%m-%d %H:%M", time.gmtime(seconds))


class Signals:
    """SIGINT and SIGTERM end a job after the current step. SIGHUP does so too, but a step that ignores it doesn't notice a lost terminal, nor do
    the programs that it runs. A command that began without SIGHUP, such as with nohup, stays so.
    """

    def __init__(self):
        self.received: int | None = None

    def __enter__(self) -> "Signals":
        self.before = {number: signal.signal(number, self._note) for number in (signal.SIGINT, signal.SIGTERM, signal.SIGHUP)}
        self.ignore_hangup(False)
        return self

    def __exit__(self, *_) -> None:
        for number, handler in self.before.items():
            signal.signal(number, handler)

    def ignore_hangup(self, ignores: bool) -> None:
        is_ignored = ignores or self.before[signal.SIGHUP] == signal.SIG_IGN
        signal.signal(signal.SIGHUP, signal.SIG_IGN if is_ignored else self._note)

    def _note(self, number: int, _frame) -> None:
        self.received = number


def advance(place: Place, job: Job, steps: list[Step], output) -> None:
    """Runs the steps that aren't done, and ends the job."""
    if job.is_undone:
        raise Stop(NO, f"{job.command} is being undone", "avroreg-admin undo")
    with Signals() as signals:
        for number, step in enumerate(steps, 1):
            signals.ignore_hangup(step.ignores_hangup)
            if signals.received:
                raise Stop(STOPPED, f"{job.command} stopped before step {number} of {len(steps)}", "avroreg-admin continue")
            if step.is_done():
                output.step(number, len(steps), f"{step.name} (was done)")
            else:
                output.step(number, len(steps), _take(step, number, len(steps), job))
            job.step = step.name
            job.save(place)
    finish(place, job, "done")


def _take(step: Step, number: int, count: int, job: Job) -> str:
    try:
        return step.effect()
    except (Stop, OSError) as error:
        message = error.message if isinstance(error, Stop) else str(error)
        more = error.next_commands if isinstance(error, Stop) else ()
        raise Stop(STOPPED, f"step {number} of {count} of {job.command} ({step.name}) failed: {message}", *more, "avroreg-admin continue",
                   "avroreg-admin undo") from error


def take_back(place: Place, job: Job, steps: list[Step], output) -> None:
    """Undoes the steps, the last one first. A step's `undo` refuses with Stop(NO, ..) after the point of no return."""
    with Signals() as signals:
        signals.ignore_hangup(True)
        for step in reversed(steps):
            if step.undo is not None:
                step.undo()
                if not job.is_undone:
                    job.is_undone = True
                    job.save(place)
                output.ok(f"{step.name} is undone")
    finish(place, job, "undone")


def finish(place: Place, job: Job, result: str) -> None:
    """Ends the job: its file becomes a line of history.jsonl."""
    note(place, asdict(job) | {"result": result, "ended": time.time()})
    remove(place.job_file)


def note(place: Place, entry: dict) -> None:
    append_line(place.state / "history.jsonl", json.dumps(entry, ensure_ascii=False))


class Lock:
    """The lock of a registry: exclusive for what changes something, shared for backups and drills.

    The file is root's and readable by the registry's group, so that the nightly backup takes it too. The
    kernel releases it when the process ends.
    """

    def __init__(self, place: Place, is_shared: bool = False, waits: bool = False):
        self.place, self.is_shared, self.waits = place, is_shared, waits

    def __enter__(self) -> "Lock":
        can_write = os.geteuid() == 0 or not self.place.lock_file.exists() or os.access(self.place.lock_file, os.W_OK)
        flags = (os.O_RDWR | os.O_CREAT if can_write else os.O_RDONLY) | os.O_NOFOLLOW | os.O_CLOEXEC
        self.descriptor = os.open(self.place.lock_file, flags, 0o640)
        if os.geteuid() == 0:
            os.fchown(self.descriptor, -1, self.place.owner[1])
        try:
            fcntl.flock(self.descriptor, (fcntl.LOCK_SH if self.is_shared else fcntl.LOCK_EX) | (0 if self.waits else fcntl.LOCK_NB))
        except BlockingIOError:
            holder = os.pread(self.descriptor, 1000, 0).decode("utf-8", "replace").strip()
            os.close(self.descriptor)
            raise Stop(BUSY, holder or "a backup or a drill runs") from None
        return self

    def say(self, text: str) -> None:
        """What others read while they can't have the lock."""
        if not self.is_shared:
            os.ftruncate(self.descriptor, 0)
            os.pwrite(self.descriptor, text.encode(), 0)

    def __exit__(self, *_) -> None:
        self.say("")
        os.close(self.descriptor)
