"""Uses up the ids that a restore loses, before the restored registry is served.

The restored registry would assign these ids again, to other schemas. A message that was written with
such an id would then be read with the wrong schema. So each lost id gets a schema in the draft: the
one of the old file if that is known, else a placeholder. `avroreg run` registers them under a subject
that no user has, and deletes the subject softly. So the ids stay used up.
"""

from collections.abc import Iterable
from dataclasses import dataclass, field
from datetime import datetime
from urllib.parse import quote

from . import program
from .nginx_log import Since
from .output import ERROR, Stop

SUBJECT = "avroreg-lost-ids"
# watch looks once a minute for the greatest id. So many more can have been assigned since then.
MARGIN = 1000
GREATEST_ID = 2_147_483_647
REFUSED_SCHEMA = 422
Schemas = list[tuple[int, str]]


class Unknown(Exception):
    """Nobody knows how many ids were assigned after the backup."""


@dataclass(frozen=True)
class OldFile:
    """The schemas of the registry that is replaced. `is_whole` is whether the guard finds no fault in the file and its log."""

    schemas: Schemas
    is_whole: bool


@dataclass(frozen=True)
class Sources:
    """What is known of the ids that were assigned after the backup."""

    backup: Schemas
    old: OldFile | None = None
    since: datetime | None = None
    log: Since | None = None
    seen: int | None = None
    seen_time: datetime | None = None
    greatest: int | None = None
    count: int | None = None


@dataclass(frozen=True)
class Plan:
    """The ids to use up, and the old schemas among them. `reasons` says where the figures are from."""

    first: int
    last: int
    schemas: dict[int, str] = field(default_factory=dict)
    ids_conflict: bool = False
    reasons: tuple[str, ...] = ()

    @property
    def count(self) -> int:
        return self.last - self.first + 1


def greatest_of(schemas: Schemas) -> int:
    return schemas[-1][0] if schemas else 0


def is_continuation(old: Schemas, backup: Schemas) -> bool:
    """Whether both files are states of one registry: one is the beginning of the other."""
    known = min(len(old), len(backup))
    return old[:known] == backup[:known]


def covers(log: Since | None, since: datetime | None) -> bool:
    """Whether the log begins before the backup, so that it has each registration since then."""
    return log is not None and since is not None and log.first is not None and log.first <= since


def is_later(seen: int | None, last: int) -> bool:
    """Whether this id was seen in the backup's registry, and not before the backup."""
    return seen is not None and seen >= max(last, 1)


def bounds_of(sources: Sources) -> Iterable[tuple[int, str]]:
    """The greatest id by each source but the old file, with its reason.

    An id that is less than the backup's last one was seen before the backup, or in another registry: it tells nothing.
    """
    last = greatest_of(sources.backup)
    if sources.count == 0:
        yield last, "nothing was registered since the backup, as was said"
        return
    if covers(sources.log, sources.since):
        clock = f"; its clock was set back at {sources.log.set_back.isoformat()}" if sources.log.set_back else ""
        yield last + sources.log.ids, f"nginx's log has {sources.log.ids} registrations since the backup{clock}"
    if is_later(sources.seen, last):
        at = f" at {sources.seen_time:%Y-%m-%d %H:%M}" if sources.seen_time else ""
        yield sources.seen + MARGIN, f"watch saw id {sources.seen:,}{at}, and {MARGIN:,} more are added, since it looks once a minute"
    if is_later(sources.greatest, last):
        yield sources.greatest + MARGIN, f"id {sources.greatest:,} was given, and {MARGIN:,} more are added"
    if sources.count is not None:
        yield last + sources.count, f"{sources.count:,} lost ids were given"


def whole_plan(sources: Sources, schemas: dict[int, str]) -> Plan | None:
    """The plan if the old file is whole, and nothing says that there were more ids."""
    last, greatest = greatest_of(sources.backup), greatest_of(sources.old.schemas)
    if not sources.old.is_whole or greatest < max(last, sources.seen or 0) or sources.greatest is not None or sources.count is not None:
        return None
    return Plan(last + 1, greatest, schemas, False, (f"the old file has {len(schemas):,} schemas after the backup's, and they keep their ids",))


def plan(sources: Sources) -> Plan:
    """The ids that are lost. Raises Unknown if no source tells them."""
    old, backup = sources.old, sources.backup
    last = greatest_of(backup)
    fits = old is not None and is_continuation(old.schemas, backup)
    schemas = {number: text for number, text in old.schemas if number > last} if fits else {}
    if fits and (whole := whole_plan(sources, schemas)):
        return checked(whole)
    bounds = list(bounds_of(sources))
    if not bounds:
        raise Unknown("the old file isn't there or isn't whole, nginx's log doesn't reach back to the backup, and watch saw no id")
    if old is not None:
        bounds.append((greatest_of(old.schemas), f"the old file has id {greatest_of(old.schemas):,}" if fits else
                       "the old file is of another registry, so its ids conflict with those of the backup"))
    greatest = max(last, *(number for number, _ in bounds))
    return checked(Plan(last + 1, greatest, schemas, conflicts(sources, fits), tuple(reason for _, reason in bounds)))


def conflicts(sources: Sources, fits: bool) -> bool:
    """Whether an id may have got two schemas: the old file is of another registry, or the number of lost ids is only an estimate."""
    old = sources.old
    if old is not None and not fits:
        return True
    is_own = old is not None and old.is_whole and old.schemas == sources.backup
    last = greatest_of(sources.backup)
    is_known = covers(sources.log, sources.since) or is_later(sources.seen, last) or is_later(sources.greatest, last) or sources.count == 0
    return not is_own and not is_known


def checked(result: Plan) -> Plan:
    """Refuses ids that don't exist."""
    if result.last > GREATEST_ID:
        raise Unknown(f"id {result.last:,} is greater than the greatest id, {GREATEST_ID:,}")
    return result


def free_subject(taken: set[str]) -> str:
    """A subject that nobody has, so that no user's subject is deleted."""
    numbered = (f"{SUBJECT}-{number}" for number in range(2, len(taken) + 3))
    return next(name for name in (SUBJECT, *numbered) if name not in taken)


def placeholder(number: int, known: set[str]) -> str:
    """The canonical text of a schema for a lost id. The name is fixed, so a second run registers the same schema."""
    name = f"avroreg.lost_{number}"
    while (text := f'{{"name":"{name}","size":1,"type":"fixed"}}') in known:
        name += "_"
    return text


def texts_of(planned: Plan, refused: set[int], known: Schemas) -> list[str]:
    """The schema of each lost id."""
    texts = {text for _, text in known}
    return [placeholder(number, texts) if number in refused or number not in planned.schemas else planned.schemas[number]
            for number in range(planned.first, planned.last + 1)]


def requests_of(subject: str, texts: list[str]) -> list[tuple]:
    """All requests: the subject takes every schema, also if the registry is read-only; then it is deleted."""
    name = quote(subject, safe="")
    registrations = [("POST", f"/subjects/{name}/versions", {"schema": text}) for text in texts]
    return [("PUT", f"/mode/{name}", {"mode": "READWRITE"}), ("PUT", f"/config/{name}", {"compatibility": "NONE"}),
            *registrations, ("DELETE", f"/subjects/{name}")]


def schemas_of(avroreg: str, database: str) -> Schemas:
    """The ids and texts of a registry's file. It is opened, so it must be a copy."""
    return [(int(number), text) for number, text in program.listing(avroreg, database, "schemas")]


def reserve(avroreg: str, draft: str, planned: Plan, refused: set[int]) -> set[int]:
    """Uses up the ids in the draft. Returns the ids whose schema was refused; if there are any, the draft is useless.

    Call it again with a new draft and with these ids, which then get placeholders.
    """
    if planned.count < 1:
        return set()
    known = schemas_of(avroreg, draft)
    if greatest_of(known) + 1 != planned.first:
        raise Stop(ERROR, f"the draft ends with id {greatest_of(known)}, so it isn't the backup of the plan")
    subject = free_subject({row[0] for row in program.listing(avroreg, draft, "versions")})
    replies = program.run(avroreg, draft, requests_of(subject, texts_of(planned, refused, known)))
    newly_refused = {number for number, (status, _) in zip(range(planned.first, planned.last + 1), replies[2:-1])
                     if status == REFUSED_SCHEMA and number in planned.schemas and number not in refused}
    if not newly_refused:
        check_replies(planned, replies)
    return newly_refused


def check_replies(planned: Plan, replies: list) -> None:
    """Compares each id with the plan. Another id would be one that the old registry gave to another schema."""
    for expected, (status, body) in zip(range(planned.first, planned.last + 1), replies[2:-1]):
        if status != 200 or body.get("id") != expected:
            raise Stop(ERROR, f"the schema for id {expected} got {status}: {body}")
    for status, body in (*replies[:2], replies[-1]):
        if status != 200:
            raise Stop(ERROR, f"the subject for lost ids got {status}: {body}")
