"""What a restore changes, for a person: the versions, deletions, levels and modes that the old file had and the backup hasn't."""

import itertools
from urllib.parse import quote

from . import program
from .nginx_log import Since

MOST_LINES = 100_000


def contents_of(avroreg: str, copied: str) -> dict:
    """What a registry's file has, each thing as a key with its value. The file is opened, so it must be a copy."""
    found = {}
    for subject, version, number, deleted in program.listing(avroreg, copied, "versions"):
        found["version", subject, int(version)] = (int(number), deleted == "true")
    subjects = [row[0] for row in program.listing(avroreg, copied, "subjects")]
    names = [None, *subjects]
    paths = [(what, "" if name is None else "/" + quote(name, safe="")) for name in names for what in ("config", "mode")]
    replies = program.run(avroreg, copied, [("GET", f"/{what}{path}", None) for what, path in paths])
    for (name, what), (status, body) in zip(itertools.product(names, ("level", "mode")), replies):
        if status == 200:
            found[what, name or "", 0] = body.get("compatibilityLevel") or body.get("mode")
    return found


def described(key: tuple, before, after) -> str:
    """One difference: what the old registry had, and what the restored one has."""
    what, name, version = key
    if what != "version":
        of = f"of {name}" if name else "of the registry"
        return f"{what} {of}: it was {before or 'not set'}, and is {after or 'not set'}"
    if after is None:
        return f"version {version} of {name}, id {before[0]}, is lost" + (" (it was deleted)" if before[1] else "")
    if before is None:
        return f"version {version} of {name}, id {after[0]}, is back: it was deleted permanently"
    if before[0] != after[0]:
        return f"version {version} of {name} had id {before[0]}, and has id {after[0]}"
    return f"version {version} of {name} was {'deleted, and is there again' if before[1] else 'there, and is deleted'}"


def compare(old: dict, restored: dict) -> list[str]:
    """The lines of difference.txt."""
    keys = sorted((key for key in old.keys() | restored.keys() if old.get(key) != restored.get(key)), key=lambda key: (key[0] != "version", key[1], key[2]))
    return [described(key, old.get(key), restored.get(key)) for key in keys[:MOST_LINES]]


def by_log(log: Since | None) -> list[str]:
    """The writes that nginx's log has since the backup, if the old file is gone."""
    if log is None:
        return []
    return [f"{entry.time.isoformat()}  {entry.method} {entry.path}  status {entry.status}" + (f"  user {entry.user}" if entry.user else "")
            for entry in log.writes]
