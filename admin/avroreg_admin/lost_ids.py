"""Use up ids of the registry in place, so that no later schema gets one of them.

Use it if ids were lost without a restore, or if a restore used up too few. The registry itself is the
backup: it is stopped, copied, extended and put back.
"""

from . import job, replacement, restore
from .output import NO, USAGE, Stop


def add(parser) -> None:
    which = parser.add_mutually_exclusive_group(required=True)
    which.add_argument("--greatest-id", metavar="N", type=restore.whole_number, help="the greatest id that was seen; 1,000 more are used up")
    which.add_argument("--count", dest="lost_ids", metavar="N", type=restore.whole_number, help="how many ids to use up")


def run(context) -> int:
    place = context.place
    if place.process() is None:
        raise Stop(NO, "avroreg doesn't run", "avroreg-admin doctor")
    status, _ = place.ask("GET", "/config")
    if status != 200:
        raise Stop(NO, f"GET /config got {status}", "avroreg-admin doctor")
    if context.options.lost_ids == 0:
        raise Stop(USAGE, "--count must be at least 1")
    return restore.replace(context, "lost-ids", lambda folder: (str(place.database), "the registry itself", None))


def steps(context, opened) -> list[job.Step]:
    return replacement.Replacement(context, opened).steps()
