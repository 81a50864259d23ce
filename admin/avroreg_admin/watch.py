"""Measure the registry, and act: pause writes before the disk is full, and restart a server whose store failed.

A timer runs this each minute, as the registry's user. It restarts the server at most three times an
hour, by killing the process: systemd starts it again. With AVROREG_ACT=no, or while a command has the
lock or is unfinished, it only measures.
"""

import os
import signal
import time
from dataclasses import dataclass, replace

from . import after_backup, facts, front, job, metrics, pauses, places, seen, server
from .facts import STORE_FAILED, Facts
from .output import BUSY, DONE, Stop, error

PAUSE, RESUME, RESTART, WAKE = "pause", "resume", "restart", "wake"
RESTARTS_AN_HOUR = 3
HOUR = 3600
SUSPENDED_SECONDS = 30
BUSY_PART = 0.9  # of a processor


def add(_parser) -> None:
    pass


@dataclass(frozen=True)
class Situation:
    """What the actions depend on."""

    now: float
    status: int
    code: int | None
    free: int
    floor: int
    pid: int | None
    is_in_place: bool  # the file and its log are those that the server has open
    has_nginx: bool
    is_paused: bool  # by watch
    is_node: bool = False
    processor: float | None = None
    check_limit: int = 90


def silence(now: Situation, recent: seen.Recent) -> seen.Recent:
    """What is remembered of a server that doesn't respond: since when, and how much it had computed then."""
    if now.status != 0 or now.pid is None:
        return replace(recent, silent_since=None, silent_processor=None, pid=now.pid)
    if recent.silent_since is None or recent.pid != now.pid:
        return replace(recent, silent_since=now.now, silent_processor=now.processor, pid=now.pid)
    return recent


def is_blocked(now: Situation, recent: seen.Recent) -> bool:
    """One check keeps the processor busy. nginx has sent 504 by then, so nobody waits for that check."""
    if not now.has_nginx or now.is_node or None in (recent.silent_since, recent.silent_processor, now.processor):
        return False
    elapsed = now.now - recent.silent_since
    return elapsed >= now.check_limit and now.processor - recent.silent_processor >= BUSY_PART * elapsed


def is_suspended(now: Situation, recent: seen.Recent) -> bool:
    """It computes nothing and doesn't respond: a killed command may have left it so."""
    if None in (recent.silent_since, recent.silent_processor, now.processor):
        return False
    return now.now - recent.silent_since >= SUSPENDED_SECONDS and now.processor - recent.silent_processor < 1


def may_restart(now: Situation, recent: seen.Recent) -> bool:
    """A kill loses nothing if the files are in place. More than three an hour don't help: then the disk is bad."""
    return now.pid is not None and now.is_in_place and len(recent.restarts) < RESTARTS_AN_HOUR


def decide(now: Situation, recent: seen.Recent) -> list[str]:
    """The actions, in their order."""
    has_failed, keeps_writes_out = now.code == STORE_FAILED, now.has_nginx and not now.is_node
    actions = []
    if keeps_writes_out and not now.is_paused and (has_failed or now.free < now.floor):
        actions.append(PAUSE)
    if has_failed and may_restart(now, recent) and (keeps_writes_out or now.free >= now.floor):
        actions.append(RESTART)
    elif is_blocked(now, recent) and may_restart(now, recent):
        actions.append(RESTART)
    elif is_suspended(now, recent):
        actions.append(WAKE)
    if now.is_paused and now.status == 200 and now.free >= 2 * now.floor:
        actions.append(RESUME)
    return actions


def situation_of(place, found: Facts) -> Situation:
    names = seen.misplaced(found.looked, found.recent) if found.looked else ["registry.db"]
    return Situation(time.time(), found.probe.status, found.probe.code, found.free, found.floor, found.pid, not names, found.has_nginx,
                     pauses.of_watch(place) is not None, found.kind == "node", found.usage.processor, place.settings.check_limit)


def measure(place) -> Facts:
    """The facts that watch may see in its sandbox."""
    found = Facts(place.name, place.unit, place.settings.kind, str(place.folder), place.settings.port, time.time())
    found.job, found.pid = job.open_job(place), server.pid_of(place)
    found.free, found.floor, found.has_nginx = facts.free_bytes(place), place.settings.floor, front.is_on(place)
    found.recent, found.looked = seen.recent_of(place), facts.allowed(place.hands, seen.look, database=place.database)
    found.probe, found.usage = facts.probe(place), server.usage_of(place, found.pid)
    if found.probe.status == 200:
        status, subjects = place.ask("GET", "/subjects")
        found.subjects = len(subjects) if status == 200 else None
    found.backups, found.backup_interval = facts.allowed(place.hands, metrics.archive_of, folder=place.backups), place.settings.backup_interval
    found.offsite = (after_backup.last_of(place) or {}).get("good")
    return found


def remember(place, found: Facts) -> None:
    """Notes the files of this start, the log's header, and the greatest id."""
    recent, looked = found.recent, found.looked
    recent.restarts = [at for at in recent.restarts if found.now - HOUR < at <= found.now]
    launch = ((looked or {}).get("mark") or {}).get("launch")
    if launch != recent.launch and looked and looked["log"] and found.probe.status == 200:
        recent.launch, recent.log = launch, looked["log"]["inode"]
    known, of_place = seen.read(place.seen_file), {"place": place.registry["place"]}
    if known.get("place", of_place["place"]) != of_place["place"]:
        known = {}  # of an earlier registry
    found.greatest_id = known.get("greatest_id")
    changes = {}
    if looked and looked["header"] and looked["header"] != known.get("header"):
        changes |= {"header": looked["header"], "header_time": found.now}
    if found.probe.status == 200:
        newest = found.newest
        least = max(found.greatest_id or 0, 0 if found.greatest_id is not None or newest is None else newest["schemas"])
        found.greatest_id = seen.greatest_id(place, least)
        changes |= {"greatest_id": found.greatest_id, "time": found.now}
    if changes and not place.hands(seen.save, file=place.seen_file, value=known | of_place | changes):
        error("the disk is full: the greatest id wasn't noted")


def act(place, found: Facts, actions: list[str]) -> None:
    reason = f"/config gets {found.probe.code or found.probe.status or 'no response'}, {found.free >> 20} MB free"
    said = {PAUSE: "writes are paused", RESTART: "avroreg restarts", WAKE: "avroreg was suspended, and goes on", RESUME: "writes resume"}
    for action in actions:
        if action == PAUSE:
            place.hands(pauses.begin, file=pauses.watch_file(place), reason=pauses.DISK_FULL if found.free < found.floor else pauses.STORE_FAILED)
        elif action == RESUME:
            place.hands(pauses.end, file=pauses.watch_file(place))
        elif action == RESTART:
            found.recent.restarts.append(found.now)
            seen.save_recent(place, found.recent)
            if server.pid_of(place) == found.pid:  # the probe may have taken long
                os.kill(found.pid, signal.SIGKILL)
        elif action == WAKE:
            wake(place, found.pid)
    if actions:
        error(f"{reason}: " + ", ".join(said[action] for action in actions))


def wake(place, pid: int) -> None:
    """Lets a suspended server go on. From then on, a copy that was made meanwhile may lack writes."""
    if place.hands(seen.save, file=place.seen_file, value=seen.read(place.seen_file) | {"woken": time.time()}):
        os.kill(pid, signal.SIGCONT)


def act_if_free(place, found: Facts, actions: list[str]) -> None:
    """Acts, unless a command has the lock: it may have stopped or suspended the server on purpose."""
    try:
        with job.Lock(place, is_shared=True):
            act(place, found, actions)
    except Stop as stop:
        if stop.status != BUSY:
            raise


def run(context) -> int:
    place = context.place
    if place.registry is None:
        return DONE
    if isinstance(place, places.Local):
        pauses.watch_file(place).parent.mkdir(parents=True, exist_ok=True)
    found = measure(place)
    remember(place, found)
    now = situation_of(place, found)
    found.recent = silence(now, found.recent)
    actions = decide(now, found.recent)
    if actions and place.settings.acts and found.job is None:
        act_if_free(place, found, actions)
    seen.save_recent(place, found.recent)
    found.pauses = pauses.found(place)
    if not place.hands(metrics.write, file=place.metrics_file, text=metrics.of(place, found)):
        error(f"the disk is full: {place.metrics_file} is old")
    return DONE
