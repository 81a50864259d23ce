"""Save what a running avroreg still has: files that somebody removed or replaced, or a log whose header is damaged.

It suspends avroreg for some seconds, copies both files out of the process, audits the copy, puts it in
place and restarts avroreg. No acknowledged write is lost. If avroreg was stopped meanwhile, its stop
made the copy, and this puts it in place.

With --over-http it copies what avroreg serves into a new file, and audits that: for a file whose audits
fail. It restores nothing, and names the command that does. Retry keys and evidence aren't copied.
"""

import calendar
import os
import signal
import time

from . import copying, drafting, job, marking, removed, replacement, seen, swap
from .files import sync_folder
from .hands import task
from .output import DONE, NO, Stop
from .program import listing


def add(parser) -> None:
    parser.add_argument("--over-http", action="store_true", help="copy what avroreg serves into a new file")


def reason(place, pid: int) -> str:
    """What there is to rescue, or an empty text."""
    names = removed.missing(place, pid)
    if names:
        return f"{' and '.join(names)} was removed or replaced in {place.folder}"
    looked = place.hands(seen.look, database=place.database)
    return f"the header of {place.log} is invalid" if looked["header"] is None else ""


def run(context) -> int:
    place = context.place
    pid = place.process()
    if context.options.over_http:
        return copy_served(context, pid)
    if pid is None:
        return put_in_place(context, copy_of_stop(context), was_running=False)
    what = reason(place, pid)
    if not what:
        raise Stop(NO, "avroreg's files are in place: there is nothing to rescue", "avroreg-admin doctor")
    context.agree([("rescue", what), ("copy", f"both files out of the process {pid}, which is suspended meanwhile"),
                   ("then", "the copy is audited and put in place, and avroreg restarts")])
    copied = removed.save(place, pid)
    context.output.ok(f"copied what avroreg has open, audit holds: {copied}")
    try:
        return put_in_place(context, copied, was_running=True)
    finally:
        if place.process() == pid:
            place.hands(marking.note_rescued, database=place.database, copy=None)
            os.kill(pid, signal.SIGCONT)


def copy_served(context, pid: int | None) -> int:
    """Copies what the server responds with into a file next to the registry's."""
    place = context.place
    if pid is None:
        raise Stop(NO, "avroreg doesn't run, so it serves nothing", "avroreg-admin doctor")
    target = place.folder / time.strftime("over-http-%Y%m%dT%H%M%SZ.db", time.gmtime())
    context.agree([("copy", f"what {place.url} serves, to {target}"), ("not copied", "retry keys, and what each version was compared with")], asks=False)
    folder = place.jobs / "over-http"
    place.hands(copying.forget, folder=folder)
    try:
        counts = copying.copy(place, copying.Source(place.url, words=("--fill-ids",)), folder / "registry.db", context.output)
        place.hands(put_aside, copied=folder / "registry.db", target=target)
    finally:
        place.hands(copying.forget, folder=folder)
    context.output.ok(f"copied and compared, audit holds: {target}, {counts['schemas']:,} schemas")
    context.output.next(f"to put it in place: avroreg-admin restore --file {target}")
    return DONE


@task
def put_aside(copied: str, target: str) -> None:
    """Moves the copy to its own name, which replaces nothing."""
    os.link(copied, target)
    os.unlink(copied)
    sync_folder(os.path.dirname(target))


def copy_of_stop(context) -> str:
    """The copy that `before-stop` made. The guard refuses to start because of what was removed."""
    place = context.place
    refusal = place.hands(marking.examine, name=place.name, root=str(place.root))
    copied = (place.hands(marking.read, database=place.database) or {}).get("rescued")
    if refusal is None or copied is None:
        raise Stop(NO, "avroreg doesn't run, so there is nothing to rescue", "avroreg-admin doctor")
    if is_older_than_wake(place, copied):
        raise Stop(NO, f"avroreg went on after the copy {copied} was made, so the copy may lack writes", f"avroreg-admin restore --file {copied}")
    context.agree([("rescue", f"{refusal['id']}: {refusal['text']}"), ("copy", copied), ("then", "the copy is audited and put in place, and avroreg starts")])
    return copied


def is_older_than_wake(place, copied: str) -> bool:
    """Whether watch let the server go on after the copy, because the command that made it was killed."""
    woken = seen.read(place.seen_file).get("woken")
    return isinstance(woken, float) and woken >= calendar.timegm(time.strptime(os.path.basename(copied), removed.COPY_NAME))


def put_in_place(context, copied: str, was_running: bool) -> int:
    place = context.place
    facts = {"source": copied, "name": copied, "since": None, "was_running": was_running, "was_paused": place.paused_file.exists(), "is_new": False}
    opened = job.new_job(place, "rescue", context.person, facts)
    job.advance(place, opened, steps(context, opened), context.output)
    return DONE


@task
def make_draft(avroreg: str, source: str, database: str, folder: str) -> dict:
    """Makes the draft in jobs/ID/new: the copy as it is. It has every write, so no id is lost."""
    new = os.path.join(folder, "new")
    os.makedirs(new, mode=0o700, exist_ok=True)
    target = os.path.join(new, os.path.basename(database))
    if os.path.lexists(target):  # of a run that was killed
        os.unlink(target)
    with drafting.scratch([source], new) as made:
        copied = drafting.checked_backup(avroreg, source, made)
        subjects = sum(int(row[2]) > 0 for row in listing(avroreg, copied, "subjects"))
        schemas = len(listing(avroreg, copied, "schemas"))
        drafting.hot_copy.copy_file(copied, target)
    ready = {"conflict": False, "subjects": subjects, "schemas": schemas, "differences": ["Nothing was lost."], "refused": []}
    swap.finish_draft(folder, ready)
    return ready


class Rescue(replacement.Replacement):
    """A restore whose backup has every write."""

    def draft(self) -> str:
        ready = self.place.hands(make_draft, avroreg=self.place.program, source=self.facts["source"], database=self.place.database, folder=self.folder)
        return f"draft made: {ready['schemas']:,} schemas, {ready['subjects']:,} subjects"

    def say_end(self) -> None:
        self.context.output.text(f"Nothing was lost: the copy has every write. The old files are in {self.folder}/old")


def steps(context, opened) -> list[job.Step]:
    return Rescue(context, opened).steps()
