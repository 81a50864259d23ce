"""Serve a file that the guard refused: "this file is right".

If writes may be missing in it, ids that were assigned may be missing too. They are used up first, so
that no id gets a second schema. The file as it lies there is kept in the job's folder.
"""

from . import guard, marking, replacement, restore
from .files import remove
from .output import DONE, NO, Stop
from .reserved_ids import MARGIN

steps = restore.steps


def add(parser) -> None:
    parser.add_argument("--reason", metavar="TEXT", required=True, help="why this file is right; it is noted with your name")
    restore.add_ids(parser)


def finding(place) -> guard.Refusal | None:
    """What the guard says, asked as the registry's user."""
    found = place.hands(marking.examine, name=place.name, root=str(place.root))
    return guard.Refusal(found["id"], found["text"], *found["next"]) if found else None


def check(place, refusal: guard.Refusal | None) -> None:
    """Refuses what this command can't help."""
    if place.process() is not None:
        raise Stop(NO, "avroreg runs, so there is nothing to accept", "avroreg-admin doctor")
    if refusal is None:
        raise Stop(NO, "the guard refuses nothing", f"systemctl start {place.unit}")
    if refusal.id in ("file-missing", "cannot-open", "unfinished"):
        raise Stop(NO, f"{refusal.id}: {refusal.text}", *refusal.commands)


def note_again(place) -> bool:
    """Without registry.json, the mark has the place's id. True if the guard then refuses nothing."""
    found = place.hands(marking.read, database=place.database)
    if found is None:
        return False
    place.note(found["place"])
    if finding(place) is None:
        return True
    remove(place.registry_file)
    return False


def is_bounded(place, refusal: guard.Refusal) -> bool:
    """Whether at most a thousand ids can be lost.

    A log has a thousand pages or so, and each registration takes some. And `watch` looks once a minute: if
    it saw an id, a file that lacks more has a lower one, which the plan compares.
    """
    return refusal.id in ("log-missing", "log-damaged") or place.hands(replacement.read_seen, file=place.seen_file) is not None


def run(context) -> int:
    place, options = context.place, context.options
    refusal = finding(place)
    check(place, refusal)
    context.output.warn(f"{refusal.id}: {refusal.text}")
    if refusal.id == "no-registry" and not options.dry_run and note_again(place):
        place.start()
        place.enable()
        context.output.ok(f"the file is the one that was served last; avroreg is up: {place.url}")
        return DONE
    if options.greatest_id is None and options.lost_ids is None and is_bounded(place, refusal):
        options.lost_ids = MARGIN
    return restore.replace(context, "accept", lambda folder: (str(place.database), f"the file in place ({options.reason})", None))
