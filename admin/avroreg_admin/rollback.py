"""Go back to the release of before, or to the one of FILE.deb. All writes are kept if that release can read the registries.

A registry that it can't read, because the newer release migrated it to another layout, is replaced by its
backup from before the upgrade, as `restore` does it. What it had since then is listed by the newer
release, before the older one is installed: the writes for difference.txt, and the schemas, which keep
their ids.
"""

import dataclasses
from pathlib import Path

from . import backup, drafting, job, replacement, upgrade
from .archive import listed


def add(parser) -> None:
    parser.add_argument("package", metavar="FILE.deb", nargs="?", type=Path, help="the package to go back to, if it wasn't kept")
    parser.set_defaults(image=None, old=None)


def run(context) -> int:
    return upgrade.carry_out(context, steps)


def steps(context, opened: job.Job) -> list[job.Step]:
    return (Back if opened.facts.get("layouts") else upgrade.Upgrade)(context, opened).steps()


class Back(upgrade.Upgrade):
    """The steps of an upgrade, and in place of the migration those of a restore."""

    def __init__(self, context, opened: job.Job):
        super().__init__(context, opened)
        self.replaced = [replacement.Replacement(dataclasses.replace(context, place=place), dataclasses.replace(opened, facts=self.facts["layouts"][place.name]))
                         for place in self.all if place.name in self.facts["layouts"]]
        self.restored = f"{opened.id}-restored"

    def steps(self) -> list[job.Step]:
        backups, stop, install, _, start, resume = super().steps()
        return [
            backups, stop,
            job.Step("list", self.note, self.is_noted, undo=self.forget, ignores_hangup=True),
            install,
            job.Step("drafts", self.draft, lambda: self.all_are("drafted"), undo=self.remove_drafts, ignores_hangup=True),
            job.Step("swap", self.swap, lambda: self.all_are("swapped"), undo=self.put_back, ignores_hangup=True),
            start, resume,
            job.Step("difference", self.end, self.is_over),
        ]

    def all_are(self, state: str) -> bool:
        return all(one.state()[state] for one in self.replaced)

    def note(self) -> str:
        for one in self.replaced:
            one.place.hands(drafting.note_old, avroreg=one.place.program, database=one.place.database, place=replacement.place_id(one.place), folder=one.folder)
        return "what the registries have is listed"

    def is_noted(self) -> bool:
        return all(one.place.hands(drafting.is_noted, folder=one.folder) for one in self.replaced)

    def forget(self) -> None:
        for one in self.replaced:
            one.place.hands(drafting.forget_old, folder=one.folder)

    def draft(self) -> str:
        return "; ".join(f"{one.place.name}: {one.draft()}" for one in self.replaced if not one.state()["drafted"])

    def remove_drafts(self) -> None:
        for one in self.replaced:
            one.remove_draft()

    def swap(self) -> str:
        for one in self.replaced:
            if not one.state()["swapped"]:
                one.swap()
        return "the backups are in place"

    def start(self) -> str:
        for one in self.replaced:  # not when it was swapped: a kill right after that would forget it
            self.facts["subjects"][one.place.name] = one.state()["ready"]["subjects"]
        return super().start()

    def put_back(self) -> None:
        for one in self.replaced:
            one.put_back()

    def refuse_served(self) -> None:
        for one in self.replaced:
            one.refuse_served()
        super().refuse_served()

    def end(self) -> str:
        for one in self.replaced:
            one.write_difference()
            if not self.is_restored(one.place):
                backup.make(one.place, job=self.restored)
            self.context.output.text(f"{one.place.name}, what was lost: {one.difference_file}")
        return "backups made"

    def is_restored(self, place) -> bool:
        return any(record["job"] == self.restored for record in place.hands(listed, folder=place.backups)["records"])

    def is_over(self) -> bool:
        return all(one.difference_file.exists() and self.is_restored(one.place) for one in self.replaced)
