"""Finds the place of a registry: a service, a container, or one of a test."""

import os
from pathlib import Path

from . import settings
from .local import LOCAL_VARIABLE, Local
from .output import USAGE, Stop
from .place import ANSWER_SECONDS, DEFAULT, USER, Place, ask
from .service import Container, Service

__all__ = ["ANSWER_SECONDS", "DEFAULT", "USER", "Container", "Local", "Place", "Service", "ask", "chosen", "names", "place_of"]


def place_of(name: str) -> Place:
    """The place of this name."""
    local = os.environ.get(LOCAL_VARIABLE)
    if local:
        return Local(name, Path(local))
    service = Service(name)
    try:
        return Container(name) if service.settings.kind == "container" else service
    except (Stop, OSError):
        return service


def names() -> list[str]:
    """The machine's registries."""
    local = os.environ.get(LOCAL_VARIABLE)
    folder = Path(local or "/") / "var/lib/avroreg-admin"
    return sorted(entry.parent.name for entry in folder.glob("*/registry.json"))


def chosen(name: str | None) -> Place:
    """The registry of this name; without one the only registry, or `default`."""
    if name is not None:
        return place_of(DEFAULT if name == DEFAULT else settings.check_name(name))
    found = names()
    if len(found) == 1 or DEFAULT in found or not found:
        return place_of(found[0] if len(found) == 1 else DEFAULT)
    raise Stop(USAGE, f"name one of this machine's registries with --registry: {', '.join(found)}")
