"""Finish the unfinished command (`continue`), or take it back (`undo`)."""

import importlib

from . import job
from .output import DONE, NO, Stop


def add(_parser) -> None:
    pass


def run(context) -> int:
    """Each module with a job has `steps(context, job)`, which returns its list of steps."""
    opened = job.open_job(context.place)
    if opened is None:
        raise Stop(NO, "no command is unfinished")
    module = importlib.import_module(f"{__package__}.{opened.command.replace('-', '_')}")
    steps = module.steps(context, opened)
    if context.options.command == "undo":
        context.agree([("undo", f"{opened.command} of {job.clock(opened.begun)} by {opened.person}")])
        job.take_back(context.place, opened, steps, context.output)
    else:
        context.agree([("continue", f"{opened.command} of {job.clock(opened.begun)} by {opened.person}")], asks=False)
        job.advance(context.place, opened, steps, context.output)
    return DONE
