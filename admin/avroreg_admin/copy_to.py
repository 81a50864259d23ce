"""Copy this registry to another one that has Confluent's mode IMPORT: ids, versions, deletions, levels and modes.

Without --switch it is a first copy: this registry goes on, the other one stays in the mode IMPORT. Run it
as often as you like: it sends only what is missing. With --switch it makes this registry read-only, sends
the rest, reads everything back, and opens the other one. The password comes from TO_PASSWORD or a prompt.

Retry keys, and what each version was compared with, aren't copied. Ids without a version go to the
subject avroreg-unused-ids, which is deleted softly, so that their messages stay readable.
"""

import json
import subprocess
from pathlib import Path
from urllib.parse import quote

from . import backup, difference, drafting, job, marking, program
from .files import remove, write_json
from .hands import task
from .output import DONE, ERROR, NO, Stop
from .target import Target, password_of

UNUSED = "avroreg-unused-ids"
IMPORT, OPEN, CLOSED = "IMPORT", "READWRITE", "READONLY"
SHOWN = 10


def add(parser) -> None:
    parser.add_argument("url", metavar="URL")
    parser.add_argument("--to-user", metavar="NAME", help="the user there; the password is in TO_PASSWORD, or is asked for")
    parser.add_argument("--to-ca", metavar="FILE", help="the certificate of its authority")
    parser.add_argument("--originals", metavar="DIR", type=Path, help="send your own text of a schema (*.avsc) if avroreg stored it as the same one")
    parser.add_argument("--switch", action="store_true", help="make this registry read-only, send the rest, and open the other one")


@task
def contents(avroreg: str, source: str, folder: str, process: int | None = None) -> dict:
    """What a backup or a served registry has: [subject, version, id, deleted], the texts of the ids, levels and modes by subject."""
    with drafting.scratch([source], folder) as made:
        copied = drafting.copied(source, made, "copy", process)
        found = difference.contents_of(avroreg, copied)
        schemas = program.listing(avroreg, copied, "schemas")
    settings = {what: {name: value for (kind, name, _), value in found.items() if kind == what} for what in ("level", "mode")}
    versions = [[name, number, *value] for (kind, name, number), value in found.items() if kind == "version"]
    return {"versions": versions, "schemas": schemas} | settings


@task
def text_of(avroreg: str, schema: str) -> str:
    """The identity text of a schema, or nothing if avroreg refuses it."""
    ran = subprocess.run([avroreg, "text", "/dev/stdin"], input=schema, capture_output=True, text=True)
    return ran.stdout.rstrip("\n") if ran.returncode == 0 else ""


class Copy:
    """The contents of this registry, and what of them the target hasn't."""

    def __init__(self, found: dict, originals: dict[str, str]):
        self.levels, self.modes = found["level"], found["mode"]
        texts = {int(number): text for number, text in found["schemas"]}
        self.sent = {number: originals.get(text, text) for number, text in texts.items()}
        self.versions = {(subject, number): (identifier, deleted) for subject, number, identifier, deleted in found["versions"]}
        used = {identifier for identifier, _ in self.versions.values()}
        for number, identifier in enumerate(sorted(texts.keys() - used), 1):
            self.versions[UNUSED, number] = (identifier, True)

    def differences(self, there: dict) -> list[str]:
        """What the target has and this registry hasn't, or has otherwise. It can't be mended by sending more."""
        lines = [f"version {number} of {subject}: only there" for subject, number in there.keys() - self.versions.keys()]
        for (subject, number), (identifier, deleted) in self.versions.items():
            found = there.get((subject, number))
            if found is None:
                continue
            if found["id"] != identifier:
                lines.append(f"version {number} of {subject} has id {found['id']} there, and {identifier} here")
            elif not is_same(found["schema"], self.sent[identifier]):
                lines.append(f"version {number} of {subject}, id {identifier}, has another schema there")
            elif found["deleted"] and not deleted:
                lines.append(f"version {number} of {subject} is deleted there")
        return sorted(lines)

    def missing(self, there: dict) -> list[tuple[int, str, int]]:
        """The versions to send, in the order of ids and numbers."""
        return sorted((identifier, subject, number) for (subject, number), (identifier, _) in self.versions.items() if (subject, number) not in there)

    def to_delete(self, there: dict) -> list[tuple[str, int]]:
        return sorted(key for key, (_, deleted) in self.versions.items() if deleted and not there.get(key, {"deleted": False})["deleted"])


def is_same(one: str, other: str) -> bool:
    """Whether two texts are the same JSON. Confluent's server formats the text anew."""
    try:
        return json.loads(one) == json.loads(other)
    except ValueError:
        return one == other


def refuse(lines: list[str], what: str) -> None:
    if lines:
        shown = "; ".join(lines[:SHOWN]) + (f"; and {len(lines) - SHOWN} more" if len(lines) > SHOWN else "")
        raise Stop(NO, f"{what}: {shown}")


def send(target: Target, copy: Copy) -> str:
    """Sends what is missing: versions, deletions, levels."""
    there = target.contents()
    refuse(copy.differences(there), f"{target.url} isn't an earlier copy of this registry")
    missing, deletions = copy.missing(there), copy.to_delete(there)
    if target.setting("mode") != IMPORT:
        target.expect("PUT", "/mode?force=true", {"mode": IMPORT})
    for identifier, subject, number in missing:
        body = {"schema": copy.sent[identifier], "schemaType": "AVRO", "id": identifier, "version": number}
        got = target.expect("POST", f"/subjects/{quote(subject, safe='')}/versions", body)
        if got.get("id") != identifier:
            raise Stop(ERROR, f"version {number} of {subject} got id {got.get('id')}, not {identifier}")
    for subject, number in deletions:
        target.expect("DELETE", f"/subjects/{quote(subject, safe='')}/versions/{number}")
    changed = send_levels(target, copy)
    return f"{len(missing)} versions, {len(deletions)} deletions and {changed} levels sent"


def send_levels(target: Target, copy: Copy) -> int:
    """Sets the levels of the registry and of the subjects. Returns how many differed."""
    changed = 0
    for name, level in copy.levels.items():
        if target.setting("config", name) != level:
            target.expect("PUT", "/config" + (f"/{quote(name, safe='')}" if name else ""), {"compatibility": level})
            changed += 1
    return changed


def compare(target: Target, copy: Copy) -> str:
    """Reads everything back."""
    there = target.contents()
    lines = copy.differences(there) + [f"version {number} of {subject} is missing there" for _, subject, number in copy.missing(there)]
    lines += [f"version {number} of {subject} isn't deleted there" for subject, number in copy.to_delete(there)]
    lines += [f"the level of {name or 'the registry'} is {target.setting('config', name)} there, and {level} here"
              for name, level in copy.levels.items() if target.setting("config", name) != level]
    refuse(lines, f"{target.url} differs")
    return f"read back, equal: {len(copy.versions)} versions"


def originals_of(place, folder: Path | None) -> dict[str, str]:
    """Your own texts by avroreg's texts of them."""
    texts = [file.read_text(encoding="utf-8") for file in sorted(folder.rglob("*.avsc"))] if folder else []
    return {place.hands(text_of, avroreg=place.program, schema=text): text for text in texts}


class Sender:
    """The steps of the switch, and the first copy."""

    def __init__(self, context, facts: dict, opened: job.Job | None = None):
        self.context, self.place, self.facts, self.job = context, context.place, facts, opened
        self._target: Target | None = None

    @property
    def target(self) -> Target:
        if self._target is None:
            self._target = Target(self.facts["url"], self.facts["user"], password_of(self.facts["user"], "TO_PASSWORD"), self.facts["certificate"])
        return self._target

    def copy_of_now(self) -> Copy:
        """The contents of a backup that is made now."""
        made = backup.make(self.place)["record"]["file"]
        return self.copy_of(self.place.backups / made, None)

    def copy_for_plan(self) -> Copy:
        """The contents of the registry. A plan makes no backup."""
        return self.copy_of(self.place.database, self.place.process())

    def copy_of(self, source: Path, process: int | None) -> Copy:
        found = self.place.hands(contents, avroreg=self.place.program, source=source, folder=self.place.backups, process=process)
        return Copy(found, originals_of(self.place, Path(self.facts["originals"]) if self.facts["originals"] else None))

    def set_mode(self, mode: str) -> None:
        status, body = self.place.ask("PUT", "/mode", {"mode": mode})
        if status != 200:
            raise Stop(ERROR, f"PUT /mode got {status}: {body}", "avroreg-admin doctor")

    def close(self) -> str:
        self.place.run_folder.mkdir(mode=0o755, parents=True, exist_ok=True)
        write_json(self.place.paused_file, {"reason": "copy-to", "person": self.context.person, "since": 0})
        self.place.hands(marking.allow, database=self.place.database, job=self.job.id)  # a restart meanwhile is let through
        self.set_mode(CLOSED)
        return "this registry is read-only"

    def open_again(self) -> None:
        self.set_mode(self.facts["mode"])
        remove(self.place.paused_file)

    def open_target(self) -> str:
        copy = self.copy_of_now()
        for name, mode in copy.modes.items():
            if name and self.target.setting("mode", name) != mode:
                self.target.expect("PUT", f"/mode/{quote(name, safe='')}", {"mode": mode})
        self.facts["is_opening"] = True  # noted before: from now on, others may write there
        self.job.save(self.place)
        self.target.expect("PUT", "/mode?force=true", {"mode": self.facts["mode"]})
        return f"{self.target.url} has the mode {self.facts['mode']}"

    def refuse_open(self) -> None:
        if self.is_open():
            raise Stop(NO, f"{self.target.url} accepts writes already", "avroreg-admin continue")

    def keep_closed(self) -> str:
        remove(self.place.paused_file)
        return "kept here, read-only"

    def steps(self) -> list[job.Step]:
        return [
            job.Step("read-only", self.close, lambda: (self.place.ask("GET", "/mode")[1] or {}).get("mode") == CLOSED, undo=self.open_again),
            job.Step("send", lambda: send(self.target, self.copy_of_now()), self.is_open),
            job.Step("compare", lambda: compare(self.target, self.copy_of_now()), self.is_open),
            job.Step("open the other one", self.open_target, self.is_open, undo=self.refuse_open),
            job.Step("end", self.keep_closed, lambda: not self.place.paused_file.exists()),
        ]

    def is_open(self) -> bool:
        """Whether the other registry was opened by this job."""
        return self.facts.get("is_opening", False) and self.target.setting("mode") == self.facts["mode"]


def facts_of(context) -> dict:
    options, place = context.options, context.place
    status, body = place.ask("GET", "/mode")
    if status != 200:
        raise Stop(NO, f"GET /mode got {status}", "avroreg-admin doctor")
    if options.switch and body["mode"] != OPEN:
        raise Stop(NO, f"this registry's mode is {body['mode']}: nothing was written since the last copy, if you made it read-only. Set it to {OPEN} first",
                   "avroreg-admin read-only off")
    return {"url": options.url, "user": options.to_user, "certificate": options.to_ca, "mode": body["mode"],
            "originals": str(options.originals.absolute()) if options.originals else None}


def run(context) -> int:
    facts = facts_of(context)
    sender = Sender(context, facts)
    copy = sender.copy_for_plan()
    there = sender.target.contents()
    refuse(copy.differences(there), f"{facts['url']} isn't empty, and isn't an earlier copy of this registry")
    plan = [("versions", f"{len(copy.missing(there)):,} of {len(copy.versions):,} to send"), ("deletions", f"{len(copy.to_delete(there)):,}"),
            ("not copied", "retry keys, and what each version was compared with")]
    if context.options.switch:
        plan += [("writes", "this registry gets read-only, and stays so"), ("then", f"{facts['url']} accepts writes")]
    context.agree(plan)
    if not context.options.switch:
        copy = sender.copy_of_now()
        context.output.ok(send(sender.target, copy))
        context.output.ok(compare(sender.target, copy))
        context.output.next(f"to switch: avroreg-admin copy-to {facts['url']} --switch")
        return DONE
    opened = job.new_job(context.place, "copy-to", context.person, facts)
    job.advance(context.place, opened, Sender(context, facts, opened).steps(), context.output)
    context.output.next(f"give your clients the URL {facts['url']}")
    return DONE


def steps(context, opened: job.Job) -> list[job.Step]:
    return Sender(context, opened.facts, opened).steps()
