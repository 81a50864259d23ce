"""After a program of root put another file in the place of a stopped registry: mark it, so that the guard lets it start. `avroreg-cluster` runs this."""

from . import job, marking
from .output import DONE, NO, Stop


def add(_parser) -> None:
    pass


def run(context) -> int:
    place = context.place
    if place.registry is None:
        raise Stop(NO, f"this machine has no registry {place.name}")
    if place.process() is not None:
        raise Stop(NO, "avroreg runs")
    with job.Lock(place):
        job.refuse_open_job(place)
        place.hands(marking.put, database=place.database, place=place.registry["place"])
    return DONE
