"""Answer writes with 503 at nginx (`pause`), or accept them again (`resume`). Reads, lookups and checks go on."""

import time

from . import front, job, pauses
from .files import remove, write_json
from .output import DONE, NO, Stop


def add(parser) -> None:
    parser.add_argument("--reason", metavar="TEXT", default="no reason given", help="pause: why, for others")


def run(context) -> int:
    place, is_pause = context.place, context.options.command == "pause"
    if is_pause and not front.is_on(place):
        raise Stop(NO, "nginx isn't in front of this registry, so nothing keeps writes out")
    job.refuse_open_job(place)
    context.agree([(context.options.command, f"writes through nginx to {place.name}")], asks=False)
    if is_pause:
        place.run_folder.mkdir(mode=0o755, parents=True, exist_ok=True)
        write_json(place.paused_file, {"reason": context.options.reason, "person": context.person, "since": time.time()})
        context.output.ok("writes get 503")
        return DONE
    remove(place.paused_file)
    if pause := pauses.of_watch(place):
        raise Stop(NO, f"watch keeps writes paused ({pause.reason}): they resume by themselves", "avroreg-admin doctor")
    context.output.ok("writes are accepted")
    return DONE
