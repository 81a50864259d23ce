"""What `doctor`, `status` and `watch` find out about a registry. The findings are made of it: findings.py."""

import collections
import hashlib
import json
import os
import subprocess
import time
from dataclasses import dataclass, field

from . import after_backup, archive, front, marking, nginx_log, places, ports, seen, server
from .job import Job, open_job
from .output import Stop
from .pauses import Pause
from .pauses import found as found_pauses

PROBE_SECONDS = 20
STORE_FAILED, STOPPED_NODE = 50001, 50303
JOURNAL_LINES = 20
LOG_LINES = 1000


@dataclass
class Probe:
    """The response to GET /config. Status 0: there was none."""

    status: int = 0
    code: int | None = None
    seconds: float = 0.0
    level: str = ""


@dataclass
class Facts:
    name: str
    unit: str = "avroreg"
    kind: str = "service"
    folder: str = ""
    port: int = 8081
    now: float = 0.0
    is_known: bool = True  # `init` made the registry
    job: Job | None = None
    pid: int | None = None
    probe: Probe = field(default_factory=Probe)
    subjects: int | None = None
    mode: str = ""
    looked: dict | None = None  # seen.look; None: this user may not look
    recent: seen.Recent = field(default_factory=seen.Recent)
    greatest_id: int | None = None
    refusal: dict | None = None  # what the guard would say
    free: int = 1 << 40
    floor: int = 64 << 20
    has_nginx: bool = False
    pauses: list[Pause] = field(default_factory=list)
    backups: dict | None = None  # archive.listed; None: this user may not look
    backup_failed: str = ""  # what the last backup said, if it failed
    same_disk: bool = False
    backup_interval: int = 86400
    after_backup: str = ""
    offsite: float | None = None  # when the copy to another machine last succeeded
    offsite_failed: str = ""  # what it said, if it failed
    usage: server.Usage = field(default_factory=server.Usage)
    restarts: int = 0  # by systemd, since the unit was started
    journal: list[str] = field(default_factory=list)  # the last lines of the program, if it doesn't run
    port_holder: str = ""
    certificate_end: float | None = None
    program_changed: bool = False
    suspect: str = ""  # the last request that nginx gave up
    settings_fault: str = ""

    @property
    def size(self) -> int:
        """Bytes of the file and of its log."""
        parts = (self.looked or {}).get("database"), (self.looked or {}).get("log")
        return sum(part["size"] for part in parts if part)

    @property
    def newest(self) -> dict | None:
        records = (self.backups or {}).get("records", ())
        return next((record for record in reversed(records) if record["audit"] == archive.HOLDS), None)

    def command(self, text: str) -> str:
        """A command of avroreg-admin for this registry."""
        return f"avroreg-admin {text}" + ("" if self.name == places.DEFAULT else f" --registry {self.name}")


def probe(place, timeout: float = PROBE_SECONDS) -> Probe:
    begun = time.monotonic()
    status, body = place.ask("GET", "/config", timeout=timeout)
    body = body if isinstance(body, dict) else {}
    return Probe(status, body.get("error_code"), time.monotonic() - begun, str(body.get("compatibilityLevel", "")))


def allowed(action, *arguments, **named):
    """The result, or None if this user may not do it, or if there is nothing yet."""
    try:
        return action(*arguments, **named)
    except (PermissionError, FileNotFoundError, NotADirectoryError, Stop):
        return None


def printed(*command: str) -> str:
    try:
        return subprocess.run(command, capture_output=True, text=True).stdout
    except OSError:
        return ""


def journal_of(place) -> list[str]:
    """What the program and the guard said last."""
    if isinstance(place, places.Local):
        return server.read(place.root / "server.log").splitlines()[-JOURNAL_LINES:]
    lines = printed("journalctl", "-u", place.unit, "-o", "cat", "-n", str(JOURNAL_LINES)).splitlines()
    return [line for line in lines if line.startswith(("avroreg", "guard", "error:"))]


def backup_failure(place) -> str:
    """What the timer's last backup said, if it failed."""
    if isinstance(place, places.Local):
        return ""
    unit = place.units[1].replace(".timer", ".service")
    if printed("systemctl", "show", "-P", "Result", unit).strip() in ("", "success"):
        return ""
    lines = [line for line in printed("journalctl", "-u", unit, "-o", "cat", "-n", str(JOURNAL_LINES)).splitlines() if line.startswith("avroreg-admin: ")]
    return lines[-1].removeprefix("avroreg-admin: ") if lines else f"see journalctl -u {unit}"


def is_program_changed(place) -> bool:
    """Whether the program isn't the one that was installed, by its record."""
    record = server.read(place.root / "usr/share/avroreg/program").split()
    if place.program not in record:
        return False
    try:
        with open(place.program, "rb") as file:
            return hashlib.file_digest(file, "sha256").hexdigest() not in record
    except OSError:
        return True


def suspect_of(place) -> str:
    """The last registration or check that nginx ended without a response: it may be the one that blocks the server."""
    try:
        lines = collections.deque(nginx_log.lines_of(place.access_log), maxlen=LOG_LINES)
    except OSError:
        return ""
    for line in reversed(lines):
        try:
            entry = json.loads(line)
            if entry["method"] == "POST" and int(entry["status"]) in (499, 504):
                return f"{entry['time']} {entry.get('user') or '-'} from {entry.get('client', '-')}: POST {entry['path']}"
        except (ValueError, KeyError, TypeError, RecursionError):
            continue
    return ""


def same_disk(place) -> bool:
    devices = [allowed(os.stat, folder) for folder in (place.folder, place.backups)]
    return None not in devices and devices[0].st_dev == devices[1].st_dev


def free_bytes(place) -> int:
    folder = next(folder for folder in (place.folder, *place.folder.parents) if folder.is_dir())
    disk = os.statvfs(folder)
    return disk.f_bavail * disk.f_frsize


def gather(place, is_quick: bool = False) -> Facts:
    """All facts. A quick look leaves out the program's checksum and the certificate. With wrong settings, little can be found out."""
    try:
        chosen = place.settings
    except Stop as stop:
        return Facts(place.name, place.unit, folder=str(place.folder), now=time.time(), is_known=place.registry is not None,
                     settings_fault=f"{place.settings_file}: {stop.message}")
    facts = Facts(place.name, place.unit, chosen.kind, str(place.folder), chosen.port, time.time(), place.registry is not None, open_job(place))
    facts.pid = place.process() or server.pid_of(place)
    facts.free, facts.floor, facts.after_backup = free_bytes(place), chosen.floor, chosen.after_backup
    facts.has_nginx, facts.pauses, facts.recent = front.is_on(place), found_pauses(place), seen.recent_of(place)
    facts.greatest_id = seen.read(place.seen_file).get("greatest_id")
    facts.backups, facts.backup_failed = allowed(place.hands, archive.listed, folder=place.backups), backup_failure(place)
    facts.same_disk, facts.backup_interval = same_disk(place), chosen.backup_interval
    last = after_backup.last_of(place) or {}
    facts.offsite, facts.offsite_failed = last.get("good"), f"{last['said']} (status {last['status']})" if last.get("status") else ""
    facts.looked = allowed(place.hands, seen.look, database=place.database)
    if facts.pid is None:
        add_stopped(place, facts)
    else:
        add_running(place, facts)
    if not is_quick:
        facts.certificate_end, facts.program_changed = front.certificate_end(place), is_program_changed(place)
    return facts


def add_stopped(place, facts: Facts) -> None:
    facts.refusal = allowed(place.hands, marking.examine, name=place.name, root=str(place.root))
    facts.journal = journal_of(place)
    if not ports.is_free(facts.port):
        facts.port_holder = ports.holder(facts.port)


def add_running(place, facts: Facts) -> None:
    facts.probe, facts.usage = probe(place), server.usage_of(place, facts.pid)
    if facts.probe.status == 0:
        facts.suspect = suspect_of(place)
    if facts.probe.status == 200:
        status, subjects = place.ask("GET", "/subjects")
        facts.subjects = len(subjects) if status == 200 else None
        status, mode = place.ask("GET", "/mode")
        facts.mode = mode["mode"] if status == 200 else ""
    if isinstance(place, places.Service):
        restarts = place.show("NRestarts")
        facts.restarts = int(restarts) if restarts.isdigit() else 0
