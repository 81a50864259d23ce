"""Install another release: `upgrade FILE.deb`, for a container `upgrade --image TAG`. `rollback` goes back to the one of before.

All registries that use it are backed up, stopped, migrated and started again. The backups are pinned,
and the packages are kept in /var/lib/avroreg-admin/packages.
"""

import contextlib
import os
from pathlib import Path

from . import backup, debian, job, layouts, marking, places, releases
from .archive import listed
from .files import remove, write_json
from .output import DONE, ERROR, NO, Stop

ADMIN = "/usr/bin/avroreg-admin"


def add(parser) -> None:
    parser.add_argument("package", metavar="FILE.deb", nargs="?", type=Path, help="the new package")
    parser.add_argument("--image", metavar="TAG", help="the new image of a container")
    parser.add_argument("--old", metavar="FILE.deb", type=Path, help="the package of the installed release, for a rollback")


def last_upgrade(place) -> dict | None:
    """The newest upgrade in the history that was finished."""
    done = [entry for entry in job.history(place) if entry.get("command") in ("upgrade", "rollback") and entry.get("result") == "done"]
    return done[-1] if done and done[-1]["command"] == "upgrade" else None


def chosen(context) -> Path:
    """The package to install."""
    options = context.options
    if options.package is not None:
        return options.package
    if options.command == "upgrade":
        raise Stop(NO, "name the new package: avroreg-admin upgrade FILE.deb")
    upgraded = last_upgrade(context.place)
    if upgraded is None:
        raise Stop(NO, "no upgrade to go back from", "avroreg-admin rollback FILE.deb")
    file = debian.find(upgraded["facts"]["from"])
    if file is None:
        raise Stop(NO, f"the package of {upgraded['facts']['from']} isn't kept here", "avroreg-admin rollback FILE.deb")
    return file


def facts_of(context) -> dict:
    facts = image_facts(context) if isinstance(context.place, places.Container) else package_facts(context)
    found = layouts.survey(release_of(context.place, facts), facts, context.place.state)
    if found and (facts["is_image"] or context.options.command == "upgrade"):
        raise Stop(NO, f"{facts['to']} can't read {', '.join(found)}: the layout is newer" + ("" if facts["is_image"] else f". It is older than {facts['from']}"),
                   *(() if facts["is_image"] else (f"avroreg-admin rollback {facts['file']}",)))
    return facts | {"layouts": found}


def release_of(place, facts: dict):
    return releases.Image(place) if facts["is_image"] else releases.Package()


def image_facts(context) -> dict:
    """An upgrade or a rollback of the container of one registry."""
    place, upgraded = context.place, last_upgrade(context.place)
    if context.options.command == "rollback" and upgraded is None:
        raise Stop(NO, "no upgrade to go back from", "avroreg-admin upgrade --image TAG")
    image = context.options.image if context.options.command == "upgrade" else upgraded["facts"]["from"]
    if not image:
        raise Stop(NO, "this registry is in a container: name the new image with --image TAG")
    if image == place.settings.image:
        raise Stop(NO, f"{image} is in use already")
    releases.check_image(image)
    return {"from": place.settings.image, "to": image, "proved": "not known for images", "file": image, "old": place.settings.image, "registries": [place.name],
            "running": [place.name] if place.process() is not None else [], "subjects": {}, "is_image": True}


def services() -> list[str]:
    """The registries that the package serves, and not an image."""
    return [name for name in places.names() if not isinstance(places.place_of(name), places.Container)]


def package_facts(context) -> dict:
    new, installed = debian.read(chosen(context)), debian.installed()
    if installed is None:
        raise Stop(NO, "avroreg wasn't installed as a Debian package: run packaging/install of the new release, which restarts the registries")
    if new.version == installed:
        raise Stop(NO, f"{installed} is installed already")
    old = context.options.old or debian.find(installed)
    running = [name for name in services() if places.place_of(name).process() is not None]
    return {"from": installed, "to": new.version, "proved": new.proved, "file": str(new.file), "old": str(old) if old else None, "registries": services(),
            "running": running, "subjects": {}, "is_image": False}


def plan_of(command: str, facts: dict) -> list[tuple[str, str]]:
    again = "avroreg-admin rollback" if command == "upgrade" else f"avroreg-admin upgrade {'--image ' if facts['is_image'] else ''}{facts['old']}"
    back = again if facts["old"] else f"not possible: there is no package of {facts['from']}. Name it with --old FILE.deb"
    return [("release", f"{facts['from']} -> {facts['to']}, proved: {facts['proved']}"), ("registries", ", ".join(facts["registries"])),
            ("backups", f"made and pinned: before {facts['to']}"), ("offline", "from the stop to the start, some seconds"), ("way back", back), *layouts.plan_rows(facts)]


def run(context) -> int:
    return carry_out(context, steps)


def carry_out(context, steps_of) -> int:
    """Plans, asks, and runs the job of an upgrade or of a rollback."""
    facts = facts_of(context)
    context.agree(plan_of(context.options.command, facts))
    for name in ("file", "old"):
        if facts[name] and not facts["is_image"]:
            facts[name] = str(debian.keep(debian.read(Path(facts[name]))))
    opened = job.new_job(context.place, context.options.command, context.person, facts)
    with others_locked(context, facts):
        job.advance(context.place, opened, steps_of(context, opened), context.output)
    if context.options.command == "upgrade" and facts["old"]:
        context.output.next("to go back: avroreg-admin rollback")
    return DONE


@contextlib.contextmanager
def others_locked(context, facts: dict):
    """The locks of the other registries."""
    with contextlib.ExitStack() as stack:
        for name in facts["registries"]:
            if name != context.place.name:
                stack.enter_context(job.Lock(places.place_of(name)))
        yield


class Upgrade:
    """The steps. A registry that didn't run isn't started."""

    def __init__(self, context, opened: job.Job):
        self.context, self.job, self.facts = context, opened, opened.facts
        self.all = [context.place if name == context.place.name else places.place_of(name) for name in self.facts["registries"]]
        self.release = release_of(context.place, self.facts)
        self.running = [place for place in self.all if place.name in self.facts["running"]]

    def steps(self) -> list[job.Step]:
        return [
            job.Step("backups", self.back_up, self.is_backed_up),
            job.Step("stop", self.stop, self.is_stopped, undo=self.start_again, ignores_hangup=True),
            job.Step("install", self.install, lambda: self.release.is_installed(self.facts["to"]), undo=self.install_old, ignores_hangup=True),
            job.Step("migrate", self.migrate, self.is_up, ignores_hangup=True),
            job.Step("start", self.start, self.is_up, undo=self.refuse_served, ignores_hangup=True),
            job.Step("resume", self.resume, lambda: not any(self.is_paused(place) for place in self.all), ignores_hangup=True),
        ]

    def back_up(self) -> str:
        made = []
        for place in self.all:
            if any(record["job"] == self.job.id for record in place.hands(listed, folder=place.backups)["records"]):
                continue
            record = backup.make(place, job=self.job.id, pinned=f"before {self.facts['to']}")["record"]
            made.append(f"{place.name} {record['schemas']} schemas")
        for place in self.running:
            status, subjects = place.ask("GET", "/subjects")
            self.facts["subjects"][place.name] = len(subjects) if status == 200 else None
        return f"backups made and pinned: {', '.join(made) or 'all were there'}"

    def is_backed_up(self) -> bool:
        return all(any(record["job"] == self.job.id for record in place.hands(listed, folder=place.backups)["records"]) for place in self.all)

    def is_paused(self, place) -> bool:
        """Whether this job paused the writes."""
        return place.paused_file.exists() and self.job.id in place.paused_file.read_text(encoding="utf-8")

    def stop(self) -> str:
        for place in self.all:
            if not place.paused_file.exists():
                place.run_folder.mkdir(mode=0o755, parents=True, exist_ok=True)
                write_json(place.paused_file, {"reason": f"{self.job.command} {self.job.id}", "person": self.job.person, "since": self.job.begun})
            place.stop()
        return "writes are paused, services are stopped"

    def is_stopped(self) -> bool:
        return self.release.installed() != self.facts["from"] or not any(place.process() for place in self.all)

    def resume(self) -> str:
        for place in self.all:
            if self.is_paused(place):
                remove(place.paused_file)
        return "writes resumed"

    def install(self) -> str:
        self.release.install(self.facts["file"])
        if self.job.command == "upgrade" and not self.facts["is_image"]:  # the new release's own command goes on
            self.job.save(self.context.place)
            self.context.output.step(3, 6, f"{self.facts['to']} is installed")
            os.execv(ADMIN, [ADMIN, "continue", "--registry", self.context.place.name])
        return f"{self.facts['to']} is installed"

    def install_old(self) -> None:
        if self.release.is_installed(self.facts["from"]):
            return
        if not self.facts["old"]:
            raise Stop(NO, f"there is no package of {self.facts['from']} to go back to", "avroreg-admin continue")
        self.release.install(self.facts["old"])

    def migrate(self) -> str:
        done = []
        for place in self.all:
            try:
                done.append(f"{place.name}: " + self.release.migrate(place))
            except Stop as stop:
                raise Stop(ERROR, stop.message, "avroreg-admin undo") from stop
        return "; ".join(done)

    def allow(self) -> None:
        place = self.context.place
        place.hands(marking.allow, database=place.database, job=self.job.id)

    def is_up(self) -> bool:
        return self.release.is_installed(self.facts["to"]) and all(place.ask("GET", "/config")[0] == 200 for place in self.running)

    def start(self) -> str:
        self.allow()
        for place in self.running:
            place.start()
            expected = self.facts["subjects"].get(place.name)
            status, subjects = place.ask("GET", "/subjects")
            if status != 200 or expected is not None and len(subjects) != expected:
                raise Stop(ERROR, f"{place.name} serves {len(subjects) if status == 200 else status} subjects, not {expected}")
        counts = [f"{place.name} {self.facts['subjects'].get(place.name)}" for place in self.running]
        return f"all respond, with as many subjects as before: {', '.join(counts)}" if counts else "nothing ran before, so nothing was started"

    def start_again(self) -> None:
        self.allow()
        for place in self.running:
            place.start()
        self.resume()

    def refuse_served(self) -> None:
        """Once the new release has served, its writes would be lost by an undo: `rollback` keeps them."""
        if self.running and self.is_up():
            raise Stop(NO, f"{self.facts['to']} has served already", "avroreg-admin continue", "avroreg-admin rollback")
        for place in self.all:
            place.stop()


def steps(context, opened: job.Job) -> list[job.Step]:
    return Upgrade(context, opened).steps()
