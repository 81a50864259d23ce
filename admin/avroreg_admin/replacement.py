"""The seven steps that replace a registry: `restore` and `lost-ids` are made of them.

Each test `is it done?` reads the files, the mark and the server. Once the restored registry has
responded, programs of this machine may have written to it, so `undo` refuses from then on.
"""

from datetime import datetime, timezone
from pathlib import Path

from . import backup, difference, drafting, incoming, init, nginx_cache, nginx_log, swap
from .archive import listed
from .files import read_json, remove, write_json, write_text
from .hands import task
from .job import Job, Step
from .output import ERROR, NO, Stop
from .places import Place


@task
def read_seen(file: str) -> dict | None:
    """The greatest id that `watch` found, and when."""
    try:
        found = read_json(file)
        return {"seen": int(found["greatest_id"]), "seen_time": iso(float(found["time"]))}
    except (OSError, ValueError, TypeError, KeyError):
        return None


def iso(seconds: float) -> str:
    return datetime.fromtimestamp(seconds, timezone.utc).isoformat()


def log_since(place: Place, since: str | None) -> nginx_log.Since | None:
    """What nginx's log has since the backup."""
    return nginx_log.since(place.access_log, datetime.fromisoformat(since)) if since else None


def known_of(place: Place, facts: dict, log: nginx_log.Since | None) -> dict:
    """What root knows of lost ids, as values of JSON: the log, what `watch` saw, and what a person said."""
    found = {"since": facts["since"], "greatest": facts["greatest"], "count": facts["count"], "log": None}
    if log is not None:
        times = {"first": log.first, "set_back": log.set_back}
        found["log"] = {"registrations": log.registrations, "unreadable": log.unreadable,
                        **{name: time.isoformat() if time else None for name, time in times.items()}}
    return found | (place.hands(read_seen, file=place.seen_file) or {})


def place_id(place: Place) -> str | None:
    return (place.registry or {}).get("place")


class Replacement:
    """The steps of one job."""

    def __init__(self, context, job: Job):
        self.context, self.place, self.job, self.facts = context, context.place, job, job.facts
        self.folder = self.place.jobs / job.id

    def state(self) -> dict:
        try:
            return self.place.hands(swap.state, database=self.place.database, folder=self.folder, job=self.job.id)
        except FileNotFoundError:
            return {"drafted": False, "swapped": False, "served": False, "ready": None}

    def steps(self) -> list[Step]:
        return [
            Step("pause", self.pause, lambda: self.place.paused_file.exists() or self.state()["served"], undo=self.end_pause),
            Step("stop", self.stop, lambda: self.state()["swapped"], undo=self.start_old, ignores_hangup=True),
            Step("draft", self.draft, lambda: self.state()["drafted"], undo=self.remove_draft, ignores_hangup=True),
            Step("swap", self.swap, lambda: self.state()["swapped"], undo=self.put_back, ignores_hangup=True),
            Step("start", self.start, lambda: self.state()["served"] and self.place.process() is not None, undo=self.refuse_served, ignores_hangup=True),
            Step("resume", self.resume, lambda: self.facts["was_paused"] or not self.place.paused_file.exists(), ignores_hangup=True),
            Step("backup", self.back_up, self.is_backed_up),
        ]

    # 1 and 6

    def pause(self) -> str:
        self.place.run_folder.mkdir(mode=0o755, parents=True, exist_ok=True)
        write_json(self.place.paused_file, {"reason": f"{self.job.command} {self.job.id}", "person": self.job.person, "since": self.job.begun})
        return "writes are paused"

    def resume(self) -> str:
        if self.state()["ready"]["conflict"]:
            self.context.output.text(nginx_cache.change_key(self.place, self.job.id))
        self.end_pause()
        return "writes resumed" if not self.facts["was_paused"] else "writes stay paused, as before"

    def end_pause(self) -> None:
        if not self.facts["was_paused"]:
            remove(self.place.paused_file)

    # 2

    def stop(self) -> str:
        self.place.stop()
        return "avroreg is stopped"

    def start_old(self) -> None:
        if not self.facts["was_running"]:
            return
        try:
            self.place.start()
        except Stop as stop:
            self.context.output.warn(f"avroreg doesn't start: {stop.message}")

    # 3

    def draft(self) -> str:
        init.make_folders(self.place)
        made = self.place.hands(drafting.make, avroreg=self.place.program, source=self.facts["source"], database=self.place.database, folder=self.folder,
                                place=place_id(self.place), known=known_of(self.place, self.facts, log_since(self.place, self.facts["since"])))
        for number in made["refused"]:
            self.context.output.warn(f"id {number}: this program refuses the old schema, so the id has a placeholder")
        return f"draft made, {made['last'] - made['first'] + 1:,} ids used up, audit holds"

    def remove_draft(self) -> None:
        self.place.hands(swap.remove_draft, folder=self.folder)
        incoming.forget(self.place)

    # 4

    def swap(self) -> str:
        noted = place_id(self.place) or init.note_registry(self.place)
        self.place.hands(swap.swap, database=self.place.database, folder=self.folder, place=noted, job=self.job.id)
        return f"{self.place.database.name} is in place"

    def put_back(self) -> None:
        self.place.hands(swap.put_back, database=self.place.database, folder=self.folder, job=self.job.id)
        if self.facts["is_new"]:
            remove(self.place.registry_file)

    # 5

    def start(self) -> str:
        if self.facts["is_new"]:
            init.write_settings(self.place, self.place.settings.port)
        self.place.start()
        if not self.place.is_enabled():
            self.place.enable()
        expected = self.state()["ready"]["subjects"]
        status, subjects = self.place.ask("GET", "/subjects")
        if status != 200 or len(subjects) != expected:
            raise Stop(ERROR, f"avroreg serves {len(subjects) if status == 200 else status} subjects, not {expected}")
        return f"avroreg is up, {expected} subjects"

    def refuse_served(self) -> None:
        """After the point of no return, nothing is taken back."""
        refusal = Stop(NO, "avroreg has served the new file, so other programs may have written to it", "avroreg-admin continue")
        if self.state()["served"] or self.state()["swapped"] and self.place.ask("GET", "/config")[0]:
            raise refusal
        self.place.stop()
        if self.state()["served"]:  # it responded just now
            self.place.start()
            raise refusal

    # 7

    @property
    def difference_file(self) -> Path:
        return self.place.state / self.job.id / "difference.txt"

    def is_backed_up(self) -> bool:
        records = self.place.hands(listed, folder=self.place.backups)["records"]
        return self.difference_file.exists() and any(record["job"] == self.job.id for record in records)

    def back_up(self) -> str:
        self.write_difference()
        incoming.forget(self.place)
        made = backup.make(self.place, job=self.job.id)
        for problem in made["problems"]:
            self.context.output.warn(problem)
        self.say_end()
        return f"backup made: {made['record']['schemas']} schemas"

    def write_difference(self) -> None:
        """Writes what was lost to a file of root."""
        lines = self.state()["ready"]["differences"]
        if lines is None:
            lines = ["The old file is gone. nginx's log has these writes since the backup:", *difference.by_log(log_since(self.place, self.facts["since"]))]
        self.difference_file.parent.mkdir(mode=0o700, exist_ok=True)
        write_text(self.difference_file, "\n".join(lines) + "\n", 0o600)

    def say_end(self) -> None:
        if self.state()["ready"]["conflict"]:
            self.context.output.warn("ids may have two schemas: restart the consumers, which keep schemas in memory")
        self.context.output.text(f"What was lost: {self.difference_file}")


def facts_of(place: Place, source: str, name: str, since: str | None, options) -> dict:
    """The facts of a new job."""
    return {"source": source, "name": name, "since": since, "greatest": options.greatest_id, "count": options.lost_ids,
            "was_running": place.process() is not None, "was_paused": place.paused_file.exists(), "is_new": place.registry is None}


def survey(place: Place, facts: dict) -> tuple[dict, list[tuple[str, str]]]:
    """What the job would do, and the plan that a person sees. Changes nothing."""
    init.make_folders(place)
    log = log_since(place, facts["since"])
    found = place.hands(drafting.survey, avroreg=place.program, source=facts["source"], database=place.database, folder=place.jobs,
                        place=place_id(place), process=place.process(), known=known_of(place, facts, log))
    return found, plan_rows(place, facts, found, log)


def plan_rows(place: Place, facts: dict, found: dict, log: nginx_log.Since | None) -> list[tuple[str, str]]:
    count = found["last"] - found["first"] + 1
    lost = f"{found['first']:,} to {found['last']:,}: " + "; ".join(found["reasons"]) if count > 0 else "none: " + "; ".join(found["reasons"])
    differences = f"{len(found['differences'])} differences to the old file" if found["has_old"] else (
        f"{len(log.writes)} writes, by nginx's log" if log else "not known: the old file and nginx's log are gone")
    return [("backup", facts["name"].partition(" with ")[0] + f", {found['schemas']:,} schemas, audit holds"),
            ("old file", f"{found['old_schemas']:,} schemas, kept in {place.jobs}" if found["has_old"] else "none that avroreg can read"),
            ("lost ids", lost), ("lost", differences),
            ("nginx", "its cache gets a new key, because ids conflict" if found["conflict"] else "the cache stays: no id gets another schema")]
