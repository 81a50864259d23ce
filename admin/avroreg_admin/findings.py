"""The problems that `doctor` names. Each is a function of the facts: the id, what is wrong, what still works, the next command.

An id is a name on docs/incident.md and the label `finding` of its alert. The guard's findings have the
guard's own ids and texts.
"""

import time

from . import seen
from .backups import size_of
from .facts import STOPPED_NODE, STORE_FAILED, Facts
from .output import Finding

LOW_BYTES = 1 << 30
MEMORY_PART = 0.7
SLOW_SECONDS = 2
DAY = 86400
CERTIFICATE_SECONDS = 21 * DAY
GUARD_IDS = ("unfinished", "no-registry", "disk-not-mounted", "file-missing", "file-replaced", "cannot-open", "log-missing", "log-damaged")
MESSAGES = (  # what the program says when it doesn't start: a part of the message, the id, what to do
    ("run migrate", "layout", "migrate"),
    ("newer than this program", "layout", "install the release that wrote the file"),
    ("is not a registry", "not-a-registry", "restore"),
    ("cannot open", "cannot-open", "repair"),
    ("out of memory", "memory", "raise MemoryMax: systemctl edit avroreg"),
    ("error:", "arguments", "correct the setting, then systemctl start avroreg"),
)


def clock(seconds: float) -> str:
    return time.strftime("%Y-%m-%d %H:%M:%S", time.gmtime(seconds))


def wrong_settings(facts: Facts) -> Finding | None:
    if not facts.settings_fault:
        return None
    return Finding("arguments", f"{facts.settings_fault}.", next=(f"correct it, then systemctl restart {facts.unit}",))


def unfinished(facts: Facts) -> Finding | None:
    if facts.job is None:
        return None
    after = f" after {facts.job.step}" if facts.job.step else ""
    state = "" if facts.pid else " avroreg is down."
    return Finding("unfinished", f"{facts.job.command} of {clock(facts.job.begun)} by {facts.job.person} stopped{after}.{state}",
                   next=(facts.command("continue"), facts.command("undo")))


def refused(facts: Facts) -> Finding | None:
    """What the guard says of a stopped registry."""
    if facts.refusal is None or facts.job is not None:
        return None
    text = facts.refusal["text"]
    return Finding(facts.refusal["id"], text if text.endswith("?") else text + ".", "The files are unchanged.", tuple(facts.refusal["next"]))


def port_taken(facts: Facts) -> Finding | None:
    if facts.pid is not None or not facts.port_holder:
        return None
    return Finding("port-taken", f"{facts.port_holder} listens on port {facts.port}.", next=("stop it, then systemctl start " + facts.unit,))


def stopped(facts: Facts) -> Finding | None:
    """The program doesn't run, and nothing keeps it from starting."""
    is_known_reason = facts.refusal is not None or facts.job is not None or facts.port_holder or facts.settings_fault
    if not facts.is_known or facts.pid is not None or is_known_reason:
        return None
    last = facts.journal[-1] if facts.journal else ""
    for part, name, command in MESSAGES:
        if part in last:
            commands = {"restore": facts.command("restore"), "repair": facts.command("repair"),
                        "migrate": "avroreg-admin package-after"}
            return Finding(name, f"avroreg doesn't start: {last}.", next=(commands.get(command, command),))
    return Finding("stopped", "avroreg doesn't run.", next=(f"systemctl start {facts.unit}",))


def removed(facts: Facts) -> Finding | None:
    if facts.pid is None or facts.looked is None or not (names := seen.misplaced(facts.looked, facts.recent)):
        return None
    return Finding("removed-while-running", f"{' and '.join(names)} was removed or replaced in {facts.folder}.",
                   "avroreg still has it open, and everything works.", (facts.command("rescue"),))


def damaged_while_running(facts: Facts) -> Finding | None:
    is_there = facts.pid is not None and facts.looked is not None and facts.looked["log"] is not None
    if not is_there or facts.looked["header"] is not None or seen.misplaced(facts.looked, facts.recent):
        return None
    return Finding("log-damaged", f"the header of the log in {facts.folder} is invalid.", "Everything works until avroreg stops.", (facts.command("rescue"),))


def store_failed(facts: Facts) -> Finding | None:
    if facts.pid is None or facts.probe.code != STORE_FAILED:
        return None
    times = len(facts.recent.restarts)
    return Finding("store-failed", f"a write to {facts.folder} failed, and every request gets 50001.", "Nothing works until avroreg restarts.",
                   (f"systemctl restart {facts.unit}",), details=(f"watch has restarted avroreg {times} times in the last hour",))


def disk_full(facts: Facts) -> Finding | None:
    if facts.free >= facts.floor:
        return None
    works = "Writes fail soon." if not facts.has_nginx else "Writes get 503."
    reads = "Reads work. " if facts.probe.status == 200 else ""
    resume = "Writes resume by themselves" if facts.has_nginx else f"Writes resume by themselves, at most three times an hour; then: systemctl restart {facts.unit}"
    return Finding("disk-full", f"{facts.folder} has {size_of(facts.free)} free.", reads + works,
                   (*ways_to_space(facts), f"or remove other files. {resume}"), details=largest(facts))


def disk_low(facts: Facts) -> Finding | None:
    if facts.free < facts.floor or facts.free >= max(2 * facts.size, LOW_BYTES):
        return None
    return Finding("disk-low", f"{facts.folder} has {size_of(facts.free)} free.", working(facts), ways_to_space(facts), details=largest(facts))


def working(facts: Facts) -> str:
    """What a problem that stops nothing leaves, unless another one has stopped avroreg."""
    return "Everything works." if facts.probe.status == 200 else ""


def ways_to_space(facts: Facts) -> tuple[str, ...]:
    """Old backups help only on the same disk."""
    return (*([facts.command("backups prune --keep 3")] if facts.same_disk else []), facts.command("move DIR"))


def largest(facts: Facts) -> tuple[str, ...]:
    records = (facts.backups or {}).get("records", ())
    total = sum(record["bytes"] for record in records)
    return (f"{len(records)} backups take {size_of(total)}" + ("" if facts.same_disk else ", on another disk"),) if records else ()


def schemas_lost(facts: Facts) -> Finding | None:
    newest = facts.newest
    if newest is None or newest["schemas"] >= newest["expected"]:
        return None
    return Finding("schemas-lost", f"the newest backup has {newest['schemas']:,} schemas, and an earlier one had {newest['expected']:,}.",
                   next=(facts.command("restore --fullest"), "on purpose: " + facts.command("backup --accept-fewer REASON")))


def backup_old(facts: Facts) -> Finding | None:
    if facts.backups is None or not facts.is_known:
        return None
    newest = facts.newest
    if newest is not None and facts.now - newest["time"] <= 1.5 * facts.backup_interval:
        return None
    what = f"the newest good backup is of {clock(newest['time'])}." if newest else "there is no good backup."
    return Finding("backup-old", what, working(facts), (facts.command("backup"),))


def backup_failed(facts: Facts) -> Finding | None:
    if not facts.backup_failed:
        return None
    return Finding("backup-failed", f"the last backup failed: {facts.backup_failed}.", working(facts), (facts.command("backup"), facts.command("rescue --over-http")))


def evidence(facts: Facts) -> Finding | None:
    failed = [record["file"] for record in (facts.backups or {}).get("records", ()) if record["audit"] != "holds"]
    if not failed:
        return None
    return Finding("evidence", f"the audit of {', '.join(failed)} fails: the disk or another program changed it.", "Other backups are right.",
                   (facts.command("backups --verify"), "check the disk"))


def blocked(facts: Facts) -> Finding | None:
    if facts.pid is None or facts.probe.status != 0:
        return None
    busy = "watch restarts it after AVROREG_CHECK_LIMIT seconds" if facts.has_nginx else "without nginx, nothing ends the check"
    return Finding("blocked", f"avroreg doesn't respond within {facts.probe.seconds:.0f} s.", "Nothing works.", (f"systemctl restart {facts.unit}",),
                   details=(busy, *([f"nginx's last request without a response: {facts.suspect}"] if facts.suspect else [])))


def slow(facts: Facts) -> Finding | None:
    if facts.probe.status != 200 or facts.probe.seconds < SLOW_SECONDS:
        return None
    return Finding("slow", f"/config takes {facts.probe.seconds:.1f} s.", "Everything works, slowly.", ("find the user with the most requests in nginx's log",))


def memory(facts: Facts) -> Finding | None:
    usage = facts.usage
    is_high = usage.limit is not None and usage.resident is not None and usage.resident > MEMORY_PART * usage.limit
    if not is_high and not usage.out_of_memory:
        return None
    killed = f" The kernel killed it {usage.out_of_memory} times for its memory." if usage.out_of_memory else ""
    return Finding("memory", f"avroreg uses {size_of(usage.resident or 0)} of {size_of(usage.limit or 0)}.{killed}", working(facts),
                   (f"raise MemoryMax: systemctl edit {facts.unit}",))


def restarts(facts: Facts) -> Finding | None:
    if facts.restarts < 3 and len(facts.recent.restarts) < 3:
        return None
    return Finding("restarts", f"systemd restarted avroreg {facts.restarts} times, {len(facts.recent.restarts)} of them by watch in the last hour.",
                   next=(f"journalctl -u {facts.unit} -n 50",))


def node_stopped(facts: Facts) -> Finding | None:
    if facts.probe.code != STOPPED_NODE:
        return None
    return Finding("node-stopped", "the relay of this node stopped.", "The other nodes work.", ("avroreg-cluster status",))


def certificate(facts: Facts) -> Finding | None:
    if facts.certificate_end is None or facts.certificate_end - facts.now > CERTIFICATE_SECONDS:
        return None
    return Finding("certificate", f"nginx's certificate ends at {clock(facts.certificate_end)}.", "Everything works until then.",
                   ("renew it, then " + facts.command("nginx renew"),))


def program_changed(facts: Facts) -> Finding | None:
    return Finding("program-changed", "/usr/bin/avroreg isn't the program that was installed.", next=("install the package again",)) if facts.program_changed else None


def writes_paused(facts: Facts) -> Finding | None:
    """A pause of an unfinished command ends with the command."""
    if not facts.pauses or facts.job is not None:
        return None
    first = facts.pauses[0]
    who = "watch" if first.by == "watch" else first.by
    is_own = first.by == "watch"
    return Finding("writes-paused", f"writes get 503 since {clock(first.since)}: {who} paused them ({first.reason}).", "Reads work." if facts.probe.status == 200 else "",
                   () if is_own else (facts.command("resume"),), is_information=True)


def read_only(facts: Facts) -> Finding | None:
    if facts.mode != "READONLY":
        return None
    return Finding("read-only", "the registry's mode is READONLY, so writes get 42205.", "Reads work.", (facts.command("read-only off"),), is_information=True)


def offsite_failed(facts: Facts) -> Finding | None:
    if not facts.offsite_failed or not facts.after_backup:
        return None
    return Finding("offsite-failed", f"the copy of the backups to another machine failed: {facts.offsite_failed}.", "The backups on this machine are right.",
                   ("mend AVROREG_AFTER_BACKUP in the settings, then " + facts.command("backup"),))


def same_disk(facts: Facts) -> Finding | None:
    if not facts.same_disk or facts.after_backup:
        return None
    return Finding("same-disk", "the backups are on the disk of the registry.", next=("set AVROREG_AFTER_BACKUP in the settings, to copy them to another machine",),
                   is_information=True)


CHECKS = (wrong_settings, unfinished, refused, port_taken, stopped, removed, damaged_while_running, store_failed, disk_full, blocked, node_stopped, schemas_lost, evidence,
          backup_failed, backup_old, offsite_failed, disk_low, memory, restarts, slow, certificate, program_changed, writes_paused, read_only, same_disk)
IDS = (*GUARD_IDS, *dict.fromkeys(name for _, name, _ in MESSAGES), "port-taken", "stopped", "removed-while-running", "store-failed", "disk-full", "disk-low",
       "schemas-lost", "backup-old", "backup-failed", "offsite-failed", "evidence", "blocked", "slow", "restarts", "node-stopped", "certificate", "program-changed",
       "writes-paused", "read-only", "same-disk")


def of(facts: Facts) -> list[Finding]:
    """All findings, the most urgent first."""
    return [finding for check in CHECKS if (finding := check(facts))]
