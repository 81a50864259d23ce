"""The settings of a registry: /etc/default/avroreg, or /etc/default/avroreg-NAME. systemd reads them too."""

import re
import shlex
from dataclasses import dataclass
from pathlib import Path

from .files import write_text
from .output import USAGE, Stop

PREFIX = "AVROREG_"
NAME = re.compile(r"[a-z][a-z0-9-]{0,30}")
RESERVED = re.compile(r"(avroreg|backup|metrics|admin|watch|relay|container|drill)(-.*)?")  # other folders and units have these names
DEFAULTS = {
    "KIND": "service",  # service, container or node
    "IMAGE": "",  # of a container
    "PORT": "8081",
    "KEEP": "7",  # how many backups to keep
    "BACKUP_INTERVAL": "86400",  # the longest time between two backups in seconds; `backup --schedule` sets it
    "AFTER_BACKUP": "",  # a command that root runs after each good backup
    "CHECK_LIMIT": "90",  # seconds without a response after which watch restarts the server, behind nginx
    "FLOOR": str(64 << 20),  # bytes of free space under which watch pauses writes
    "ACT": "yes",  # no: watch only measures
}
KINDS = ("service", "container", "node")


@dataclass(frozen=True)
class Settings:
    kind: str
    port: int
    keep: int
    backup_interval: int
    after_backup: str
    check_limit: int
    floor: int
    acts: bool
    image: str = ""


def is_name(name: str) -> bool:
    return bool(NAME.fullmatch(name)) and not RESERVED.fullmatch(name)


def check_name(name: str) -> str:
    """The name of a registry. Refuses one that other folders or units have."""
    if not NAME.fullmatch(name):
        raise Stop(USAGE, f"{name!r} is no name for a registry: use a letter, then up to 30 of a-z, 0-9 and -")
    if RESERVED.fullmatch(name):
        raise Stop(USAGE, f"a registry can't be named {name}: another folder or unit has this name")
    return name


def values_of(text: str) -> dict[str, str]:
    """The assignments of an environment file of systemd, without continued lines."""
    values = {}
    for line in text.splitlines():
        name, equals, value = line.strip().partition("=")
        if equals and not name.startswith(("#", ";")):
            try:
                parts = shlex.split(value, posix=True)
            except ValueError:
                parts = [value]
            values[name.strip()] = " ".join(parts)
    return values


def number(values: dict[str, str], name: str, least: int, most: int) -> int:
    text = values[name]
    if not (text.isascii() and text.isdigit() and least <= int(text) <= most):
        raise Stop(USAGE, f"the setting {PREFIX}{name}={text} isn't a number from {least} to {most}")
    return int(text)


def read(file: Path) -> Settings:
    """The settings, with the default for each one that is missing. A wrong value is refused."""
    found = values_of(file.read_text(encoding="utf-8")) if file.exists() else {}
    values = {name: found.get(PREFIX + name, default) for name, default in DEFAULTS.items()}
    if values["KIND"] not in KINDS:
        raise Stop(USAGE, f"the setting {PREFIX}KIND={values['KIND']} isn't one of {', '.join(KINDS)}")
    return Settings(values["KIND"], number(values, "PORT", 1, 65535), number(values, "KEEP", 1, 100000), number(values, "BACKUP_INTERVAL", 60, 366 * 86400), values["AFTER_BACKUP"],
                    number(values, "CHECK_LIMIT", 1, 86400), number(values, "FLOOR", 0, 1 << 50), values["ACT"] != "no", values["IMAGE"])


def changed(text: str, changes: dict[str, str]) -> str:
    """The file's text with these settings. Comments and other lines stay."""
    lines = text.splitlines()
    for name, value in changes.items():
        line = f"{PREFIX}{name}={value if re.fullmatch(r'[A-Za-z0-9_./:@%+,-]*', value) else shlex.quote(value)}"
        places = [at for at, old in enumerate(lines) if old.strip().startswith(f"{PREFIX}{name}=")]
        for at in reversed(places[1:]):
            del lines[at]
        if places:
            lines[places[0]] = line
        else:
            lines.append(line)
    return "\n".join(lines) + "\n"


def change(file: Path, changes: dict[str, str]) -> None:
    write_text(file, changed(file.read_text(encoding="utf-8") if file.exists() else "", changes))
