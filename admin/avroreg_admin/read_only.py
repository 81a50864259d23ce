"""Refuse writes with 42205 (`read-only on`), or accept them again (`read-only off`).

A subject with a mode of its own keeps it. With --all-subjects, `on` makes it READONLY too, and `off`
gives it READWRITE again. A subject without versions isn't found, because no request lists it.
"""

from pathlib import Path
from urllib.parse import quote

from .files import read_json, remove, write_json
from .output import DONE, ERROR, Stop

MODES = {"on": "READONLY", "off": "READWRITE"}


def add(parser) -> None:
    parser.add_argument("state", choices=tuple(MODES))
    parser.add_argument("--all-subjects", action="store_true", help="on: also the subjects with a mode of their own")


def note_of(place) -> Path:
    """The subjects whose own mode was READWRITE before `on --all-subjects`."""
    return place.state / "read-only.json"


def noted(place) -> list[str]:
    return (read_json(note_of(place)) or {"subjects": []})["subjects"]


def asked(place, method: str, path: str, body=None):
    """The value of a response with status 200."""
    status, value = place.ask(method, path, body)
    if status != 200:
        raise Stop(ERROR, f"avroreg answers {status or 'nothing'}: {value}", "avroreg-admin doctor")
    return value


def path_of(subject: str) -> str:
    return f"/mode/{quote(subject, safe='')}"


def own_mode(place, subject: str) -> str | None:
    status, value = place.ask("GET", path_of(subject))
    return value["mode"] if status == 200 else None


def run(context) -> int:
    place, mode = context.place, MODES[context.options.state]
    is_on = context.options.state == "on"
    if is_on and context.options.all_subjects:
        writable = [name for name in asked(place, "GET", "/subjects?deleted=true") if own_mode(place, name) == MODES["off"]]
        subjects = sorted({*noted(place), *writable})
    else:
        subjects = [] if is_on else noted(place)
    context.agree([("mode", mode), ("subjects", f"{len(subjects)} with a mode of their own: {mode}")], asks=False)
    if is_on:
        asked(place, "PUT", "/mode", {"mode": mode})
        if subjects:
            write_json(note_of(place), {"subjects": subjects})  # before their modes change: `off` finds it after a kill
    for name in subjects:
        asked(place, "PUT", path_of(name), {"mode": mode})
    if not is_on:
        asked(place, "PUT", "/mode", {"mode": mode})
        remove(note_of(place))
    context.output.ok(f"the mode is {mode}" + (f", also of {len(subjects)} subjects with a mode of their own" if subjects else ""))
    return DONE
