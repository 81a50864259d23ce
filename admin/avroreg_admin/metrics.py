"""Metrics for the textfile collector of Prometheus' node exporter."""

import collections
import json
import os
from collections.abc import Iterator
from pathlib import Path

from . import archive, front, pauses, places, seen
from .facts import STORE_FAILED, Facts
from .files import read_json, write_text
from .hands import task


class Metrics:
    """Lines in Prometheus' text format. A registry that isn't the machine's default one has a label with its name."""

    def __init__(self, name: str):
        self.lines: list[str] = []
        self.labels = {} if name == places.DEFAULT else {"registry": name}

    def gauge(self, name: str, help_text: str, *samples: tuple[dict[str, str], float]) -> None:
        self.lines += [f"# HELP avroreg_{name} {help_text}", f"# TYPE avroreg_{name} gauge"]
        for labels, value in samples:
            inside = ",".join(f"{label}={json.dumps(text, ensure_ascii=False)}" for label, text in (self.labels | labels).items())
            self.lines.append(f"avroreg_{name}{{{inside}}} {value}" if inside else f"avroreg_{name} {value}")

    def known(self, name: str, help_text: str, value) -> None:
        """A gauge that is left out if its value isn't known."""
        if value is not None:
            self.gauge(name, help_text, ({}, value))

    def text(self) -> str:
        return "\n".join(self.lines) + "\n"


@task
def write(file: str, text: str) -> bool:
    """Replaces the file. On a full disk it is overwritten in its own blocks; False if it doesn't fit."""
    try:
        write_text(file, text)
        return True
    except OSError as error:
        if error.errno not in seen.FULL:
            raise
    Path(file + ".new").unlink(missing_ok=True)
    data = text.encode()
    try:
        with open(os.open(file, os.O_WRONLY | os.O_NOFOLLOW | os.O_CLOEXEC), "wb") as opened:
            if len(data) > os.fstat(opened.fileno()).st_blocks * 512:
                return False
            opened.write(data)
            opened.truncate()
    except OSError:
        return False
    return True


@task
def archive_of(folder: str) -> dict:
    """The newest good backup by last-good.json, in the form of `archive.listed`."""
    try:
        note = read_json(Path(folder, archive.NOTE)) or {}
        known = {name: int(note[name]) for name in ("time", "subjects", "versions", "schemas", "expected")}
    except (ValueError, KeyError, TypeError):  # none yet, or damaged: the next backup writes it anew
        return {"records": []}
    return {"records": [known | {"audit": archive.HOLDS}]}


def of_server(metrics: Metrics, facts: Facts) -> None:
    found, usage = facts.probe, facts.usage
    metrics.gauge("up", "1 if /config is answered with 200.", ({}, int(found.status == 200)))
    metrics.gauge("probe_seconds", "Response time of /config, including the wait for other requests.", ({}, round(found.seconds, 4)))
    metrics.gauge("store_failed", "1 if /config is answered 50001: a storage fault stopped the registry until its next start.",
                  ({}, int(found.code == STORE_FAILED)))
    metrics.known("subjects", "Subjects with a live version.", facts.subjects)
    metrics.known("rss_bytes", "Memory of the program.", usage.resident)
    metrics.known("memory_limit_bytes", "MemoryMax of the unit.", usage.limit)
    metrics.gauge("restarts", "Restarts by watch in the last hour.", ({}, len(facts.recent.restarts)))


def of_files(metrics: Metrics, facts: Facts) -> None:
    looked = facts.looked or {"database": None, "log": None, "header": None}
    sizes = [({"file": name}, (looked[key] or {"size": 0})["size"]) for name, key in (("database", "database"), ("log", "log"))]
    metrics.gauge("file_bytes", "Size of the registry's file and of its log.", *sizes)
    metrics.gauge("disk_free_bytes", "Free space on the disk of the registry's file.", ({}, facts.free))
    metrics.gauge("disk_floor_bytes", "Free space under which watch pauses writes.", ({}, facts.floor))
    if facts.pid is not None and facts.looked is not None:
        metrics.gauge("files_in_place", "1 if the file and its log are those that the program has open.",
                      ({}, int(not seen.misplaced(looked, facts.recent))))
        metrics.gauge("log_valid", "1 if the header of the log is valid.", ({}, int(looked["header"] is not None)))
    metrics.known("greatest_id", "The greatest id that watch saw.", facts.greatest_id)


def of_operator(metrics: Metrics, facts: Facts) -> None:
    newest = facts.newest
    if facts.backups is not None:
        metrics.gauge("backup_good_timestamp_seconds", "Time of the newest backup that passed its audit; 0 if there is none.",
                      ({}, newest["time"] if newest else 0))
    for name in ("subjects", "versions", "schemas"):
        if newest:
            metrics.gauge(f"backup_{name}", f"Number of {name} in that backup, soft-deleted ones included.", ({}, newest[name]))
    if newest:
        metrics.gauge("backup_schemas_expected", "The most schemas of a backup since the baseline.", ({}, newest["expected"]))
    metrics.gauge("backup_interval_seconds", "The longest time between two backups.", ({}, facts.backup_interval))
    metrics.known("offsite_timestamp_seconds", "When AVROREG_AFTER_BACKUP last succeeded.", facts.offsite)
    reasons = {pause.reason if pause.by == "watch" else "command" for pause in facts.pauses}
    samples = [({"reason": reason}, int(reason in reasons)) for reason in (pauses.DISK_FULL, pauses.STORE_FAILED, "command")]
    metrics.gauge("writes_paused", "1 if nginx refuses writes for this reason.", *samples)
    metrics.gauge("job_unfinished", "1 if a command was stopped on its way.", ({}, int(facts.job is not None)))
    metrics.known("certificate_expiry_timestamp_seconds", "When nginx's certificate ends.", facts.certificate_end)


def entries_of(log: Path) -> Iterator[dict]:
    """The entries of nginx's access log. A line that isn't a JSON object is skipped."""
    with log.open(encoding="utf-8", errors="replace") as file:
        for line in file:
            try:
                entry = json.loads(line)
            except (ValueError, RecursionError):
                continue
            if isinstance(entry, dict):
                yield entry


def user_of(entry: dict) -> str:
    """The user, if nginx checked the password. What it rejects by itself can have any name: 401, 403, 422, 429."""
    is_checked = bool(entry.get("upstream_status")) or str(entry.get("status")) < "400"
    return str(entry.get("user") or "-") if is_checked else "-"


def of_requests(metrics: Metrics, log: Path) -> None:
    """Counts the requests, if watch may read the log."""
    try:
        counts = collections.Counter((user_of(entry), str(entry.get("status"))) for entry in entries_of(log))
    except OSError:
        return
    samples = [({"user": user, "status": status}, count) for (user, status), count in sorted(counts.items())]
    metrics.gauge("requests", "Requests in nginx's access log since it was rotated.", *samples)


def of(place, facts: Facts) -> str:
    metrics = Metrics(facts.name)
    facts.certificate_end = front.certificate_end(place)
    for part in (of_server, of_files, of_operator):
        part(metrics, facts)
    of_requests(metrics, place.access_log)
    metrics.gauge("watched_timestamp_seconds", "When these metrics were written.", ({}, int(facts.now)))
    return metrics.text()
