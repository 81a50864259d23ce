"""Copy another registry, Confluent's or avroreg, into this one: subjects, version numbers, ids, deletions, levels and modes.

Without --switch it is a rehearsal: it copies into a file of its own, compares, and throws the copy away.
It names each thing that can't be copied unchanged, with the option that says how to go on. With --switch
it makes the other registry read-only, copies and compares again, puts the copy in the place of this
registry, and opens it. The password comes from FROM_PASSWORD or a prompt.

The keys of writes, and what each version was compared with, aren't copied.
"""

import os
import shutil
from pathlib import Path

from . import copying, difference, drafting, hot_copy, job, program, replacement, swap
from .hands import task
from .output import DONE, ERROR, NO, Stop
from .target import Target, password_of

OPEN, CLOSED = "READWRITE", "READONLY"
FLAGS = ("--skip", "--fill-ids", "--new-ids", "--without-modes")


def add(parser) -> None:
    parser.add_argument("url", metavar="URL")
    parser.add_argument("--from-user", metavar="NAME", help="the user there; the password is in FROM_PASSWORD, or is asked for")
    parser.add_argument("--from-ca", metavar="FILE", type=Path, help="the certificate of its authority")
    parser.add_argument("--skip", action="store_true", help="leave out what avroreg doesn't accept")
    ids = parser.add_mutually_exclusive_group()
    ids.add_argument("--fill-ids", action="store_true", help="keep ids that avroreg wouldn't assign by itself: use up those that no version has")
    ids.add_argument("--new-ids", action="store_true", help="give new ids, and print each: messages with the old ones become unreadable")
    parser.add_argument("--used-ids", metavar="N", type=int, default=0, help="use up the ids 1 to N first: 100000 for Confluent Cloud, whose ids begin at 100,001")
    parser.add_argument("--without-modes", action="store_true", help="leave out modes that avroreg doesn't have")
    parser.add_argument("--switch", action="store_true", help="make the other registry read-only, and serve the copy here")
    parser.add_argument("--replace", action="store_true", help="with --switch: also if this registry has schemas. Its files are kept")


@task
def schemas_in_place(avroreg: str, database: str, process: int | None, folder: str) -> int:
    """How many schemas the registry has."""
    os.makedirs(folder, mode=0o700, exist_ok=True)
    with drafting.scratch([database], folder) as made:
        return len(program.listing(avroreg, drafting.copied(database, made, "old", process), "schemas"))


@task
def make_draft(avroreg: str, copied: str, database: str, folder: str, place: str | None, process: int | None, mode: str) -> dict:
    """Moves the copy to jobs/ID/new as the draft, with this mode, and notes what it has and what it replaces."""
    new = os.path.join(folder, "new")
    shutil.rmtree(new, ignore_errors=True)
    os.makedirs(new, mode=0o700)
    with drafting.scratch([database, copied], new) as made:
        old, copy = drafting.old_of(avroreg, database, place, made, process)
        draft = drafting.copied(copied, made, "draft")
        [(status, _)] = program.run(avroreg, draft, [("PUT", "/mode", {"mode": mode})])
        if status != 200:
            raise Stop(ERROR, f"the copy refuses the mode {mode} with {status}")
        schemas = program.listing(avroreg, draft, "schemas")
        subjects = sum(int(row[2]) > 0 for row in program.listing(avroreg, draft, "subjects"))
        lines = difference.compare(difference.contents_of(avroreg, copy), difference.contents_of(avroreg, draft)) if old and old.schemas else []
        hot_copy.copy_file(draft, os.path.join(new, os.path.basename(database)))
    ready = {"conflict": bool(old and old.schemas), "subjects": subjects, "schemas": len(schemas), "differences": lines, "refused": []}
    swap.finish_draft(folder, ready)
    return ready


class Switch(replacement.Replacement):
    """A restore whose backup is a copy of the other registry."""

    def __init__(self, context, opened: job.Job):
        super().__init__(context, opened)
        self.copied = self.folder / "copy" / "registry.db"
        self._there: Target | None = None

    @property
    def there(self) -> Target:
        if self._there is None:
            self._there = Target(self.facts["url"], self.facts["user"], self.password, self.facts["certificate_file"])
        return self._there

    @property
    def password(self) -> str | None:
        return password_of(self.facts["user"], "FROM_PASSWORD")

    def steps(self) -> list[job.Step]:
        pause, stop, _, put, start, resume, back_up = super().steps()
        return [job.Step("other registry", self.close_there, lambda: self.facts["mode"] is None or self.there.setting("mode") == CLOSED, undo=self.open_there),
                job.Step("copy", self.copy, lambda: self.state()["drafted"], undo=self.remove_copy),
                pause, stop, put, start, resume, back_up]

    def close_there(self) -> str:
        self.there.expect("PUT", "/mode", {"mode": CLOSED})
        return f"{self.facts['url']} is {CLOSED}"

    def open_there(self) -> None:
        if self.facts["mode"] not in (None, CLOSED):
            self.there.expect("PUT", "/mode", {"mode": self.facts["mode"]})

    def copy(self) -> str:
        counts = copying.copy(self.place, source_of(self.facts, self.password), self.copied, self.context.output)
        self.place.hands(make_draft, avroreg=self.place.program, copied=self.copied, database=self.place.database, folder=self.folder,
                         place=replacement.place_id(self.place), process=self.place.process(), mode=CLOSED if self.facts["mode"] == CLOSED else OPEN)
        self.place.hands(copying.forget, folder=self.copied.parent)
        return f"copied and compared, audit holds: {counts['subjects']:,} subjects, {counts['versions']:,} versions, {counts['schemas']:,} schemas"

    def remove_copy(self) -> None:
        self.place.hands(copying.forget, folder=self.copied.parent)
        self.remove_draft()

    def say_end(self) -> None:
        super().say_end()
        self.context.output.next("give your clients this registry's URL (schema.registry.url), then stop the old one")


def source_of(facts: dict, password: str | None) -> copying.Source:
    return copying.Source(facts["url"], facts["user"], password, facts["certificate"], tuple(facts["words"]), facts["used_ids"])


def facts_of(context) -> dict:
    """What the job needs. The password isn't among it: `continue` takes it again from FROM_PASSWORD or a prompt."""
    options, place = context.options, context.place
    words = [flag for flag in FLAGS if getattr(options, flag.removeprefix("--").replace("-", "_"))]
    return {"url": options.url.rstrip("/"), "user": options.from_user, "words": words, "used_ids": options.used_ids,
            "certificate": options.from_ca.read_text(encoding="utf-8") if options.from_ca else None,
            "certificate_file": str(options.from_ca.absolute()) if options.from_ca else None,
            "since": None, "was_running": place.process() is not None, "was_paused": place.paused_file.exists(), "is_new": False}


def rehearse(context, facts: dict) -> int:
    place = context.place
    context.agree([("copy", f"{facts['url']} into a file of its own, which is thrown away"), ("this registry", "goes on, unchanged")], asks=False)
    folder = place.jobs / "rehearsal"
    place.hands(copying.forget, folder=folder)
    try:
        counts = copying.copy(place, source_of(facts, password_of(facts["user"], "FROM_PASSWORD")), folder / "registry.db", context.output)
    finally:
        place.hands(copying.forget, folder=folder)
    context.output.ok(f"rehearsal: copied and compared, equal, audit holds: {counts['schemas']:,} schemas. Nothing is served from it")
    context.output.next("to switch: the same with --switch. It makes the old registry read-only first")
    return DONE


def run(context) -> int:
    facts, place = facts_of(context), context.place
    if not context.options.switch:
        return rehearse(context, facts)
    here = place.hands(schemas_in_place, avroreg=place.program, database=place.database, process=place.process(), folder=place.jobs)
    if here and not context.options.replace:
        raise Stop(NO, f"this registry has {here:,} schemas already: --replace puts the copy in its place, and keeps its files")
    there = Target(facts["url"], facts["user"], password_of(facts["user"], "FROM_PASSWORD"), facts["certificate_file"])
    facts["mode"] = there.setting("mode")
    closes = f"gets {CLOSED}, and stays so" if facts["mode"] is not None else "has no modes: stop its writers now"
    context.agree([("old registry", f"{facts['url']} {closes}"), ("copy", "into a new file, compared and audited"),
                   ("this registry", f"{here:,} schemas, replaced; its files are kept in {place.jobs}"), ("offline", "some seconds")])
    opened = job.new_job(place, "copy-from", context.person, facts)
    job.advance(place, opened, steps(context, opened), context.output)
    return DONE


def steps(context, opened: job.Job) -> list[job.Step]:
    return Switch(context, opened).steps()
