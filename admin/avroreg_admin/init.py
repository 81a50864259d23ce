"""Make a registry, start it, and enable its backups and metrics.

It is the only command that makes one. If this machine ever had that registry, `restore` brings it back.
"""

import contextlib
import os
import secrets
from pathlib import Path

from . import job, marking, places, ports, program, releases, settings
from .files import remove, sync_folder, write_text
from .hands import task
from .output import DONE, NO, Stop

GLIBC_TUNABLES = "glibc.malloc.tcache_count=2000"  # it speeds up parsing, which allocates many small blocks


def add(parser) -> None:
    parser.add_argument("--port", type=int, help="the port on 127.0.0.1 (8081, or the one in the settings)")
    parser.add_argument("--image", metavar="TAG", help="run avroreg in a container of podman from this image")
    parser.add_argument("--adopt", metavar="FILE", help="use this registry's file, with its log, instead of a new one")


def run(context) -> int:
    options = context.options
    place = context.place = place_of(context, options.image)
    port = options.port or place.settings.port
    check(place, port, options.adopt)
    if options.image:
        releases.check_image(options.image)
    context.agree([("registry", f"{place.name}: {place.database}" + (f", from {options.adopt}" if options.adopt else ", empty")),
                   ("port", str(port)), ("units", ", ".join(place.units))], asks=False)
    context.output.ok(f"port {port} is free")
    make_state(place)
    with contextlib.nullcontext() if context.lock else job.Lock(place):
        opened = job.new_job(place, "init", context.person, {"port": port, "adopt": options.adopt, "image": options.image})
        job.advance(place, opened, steps(context, opened), context.output)
    context.output.next("let other machines in: avroreg-admin nginx on --name HOST --cert FILE --key FILE")
    return DONE


def place_of(context, image: str | None):
    return places.Container(context.place.name) if image and isinstance(context.place, places.Service) else context.place


def check(place, port: int, adopt: str | None) -> None:
    """Refuses what can't work, before anything changes."""
    if place.registry is not None or place.job_file.exists():
        raise Stop(NO, f"this machine has the registry {place.name} already", "avroreg-admin status")
    try:
        has_file = place.hands(exists, path=place.database)
        backups = place.hands(count, folder=place.backups, pattern="registry-*.db")
    except FileNotFoundError:
        has_file, backups = False, 0
    if has_file:
        raise Stop(NO, f"{place.database} is there already", "avroreg-admin accept --reason TEXT")
    if backups and not adopt:
        raise Stop(NO, f"{place.backups} has {backups} backups of a registry {place.name}", "avroreg-admin restore")
    if not 1 <= port <= 65535:
        raise Stop(NO, f"{port} is no port")
    if not ports.is_free(port):
        raise Stop(NO, f"{ports.holder(port)} listens on port {port}", "avroreg-admin init --port N")


def make_state(place) -> None:
    """Makes root's folder of the registry."""
    for folder in (place.state, place.run_folder):
        folder.mkdir(mode=0o755, parents=True, exist_ok=True)


def make_folder(place, folder: Path, mode: int) -> None:
    """Makes a folder of the registry's user in a folder of root."""
    try:
        os.mkdir(folder, 0o700)
    except FileExistsError:
        return
    descriptor = os.open(folder, os.O_RDONLY | os.O_DIRECTORY | os.O_NOFOLLOW)
    try:
        os.fchown(descriptor, *place.owner)
        os.fchmod(descriptor, mode)
    finally:
        os.close(descriptor)
    sync_folder(folder.parent)


def make_folders(place) -> None:
    for folder, mode in ((place.folder, 0o700), (place.backups, 0o700), (place.metrics, 0o755)):
        folder.parent.mkdir(parents=True, exist_ok=True)
        make_folder(place, folder, mode)


def write_settings(place, port: int, image: str | None = None) -> None:
    place.settings_file.parent.mkdir(parents=True, exist_ok=True)
    text = place.settings_file.read_text(encoding="utf-8") if place.settings_file.exists() else f"# Settings of the registry {place.name}.\n"
    if "GLIBC_TUNABLES=" not in text:
        text += f"GLIBC_TUNABLES={GLIBC_TUNABLES}\n"
    write_text(place.settings_file, settings.changed(text, {"PORT": str(port)} | ({"KIND": "container", "IMAGE": image} if image else {})))


def note_registry(place) -> str:
    """Writes registry.json. Returns the place's id, which the mark has too."""
    place_id = secrets.token_hex(16)
    place.note(place_id)
    return place_id


@task
def exists(path: str) -> bool:
    return os.path.lexists(path)


@task
def count(folder: str, pattern: str) -> int:
    return len(list(Path(folder).glob(pattern)))


@task
def make_registry(executable: str, database: str, draft: str) -> None:
    """Makes an empty registry in a folder of its own, and moves it to its place. A killed run leaves only the draft."""
    os.makedirs(os.path.dirname(draft), mode=0o700, exist_ok=True)
    for suffix in ("", "-wal"):
        Path(draft + suffix).unlink(missing_ok=True)
    program.make(executable, draft)
    put(draft, database)


@task
def put(draft: str, database: str) -> None:
    """Moves a file without a log to its place, if nothing is there."""
    if os.path.lexists(draft + "-wal"):
        raise Stop(NO, f"{draft} has a log")
    os.chmod(draft, 0o600)
    with open(draft, "rb") as file:
        os.fsync(file.fileno())
    os.link(draft, database)  # unlike a rename, it replaces nothing
    os.unlink(draft)
    sync_folder(os.path.dirname(database))


@task
def put_aside(database: str, folder: str) -> None:
    """Moves F, its log and its mark to the job's folder."""
    os.makedirs(folder, mode=0o700, exist_ok=True)
    for name in ("registry.mark", "registry.db", "registry.db-wal"):
        path = os.path.join(os.path.dirname(database), name)
        if os.path.lexists(path):
            os.rename(path, os.path.join(folder, name))
    sync_folder(os.path.dirname(database))


@task
def audit_draft(executable: str, draft: str) -> int:
    """Audits a file, which then has no log. Returns its number of schemas."""
    audited = program.audit(executable, draft)
    if audited["status"] != 0:
        raise Stop(NO, f"{draft} fails its audit: {audited['text']}")
    return len(program.listing(executable, draft, "schemas"))


def copy_in(place, source: str, target: str) -> None:
    """Copies a file that root names into the folder of the registry's user."""
    from .removed import copy
    copy(place, source, target)


def adopt(place, source: str, draft: str) -> str:
    """Copies FILE and its log, audits the copy, and puts it in place. FILE stays."""
    place.hands(clear, folder=os.path.dirname(draft))
    for suffix in ("", "-wal"):
        if os.path.exists(source + suffix):
            copy_in(place, source + suffix, draft + suffix)
    schemas = place.hands(audit_draft, executable=place.program, draft=draft)
    place.hands(put, draft=draft, database=place.database)
    return f"{place.database} is a copy of {source}, with {schemas} schemas"


@task
def clear(folder: str) -> None:
    """Makes the folder of a draft, without the files of a killed run."""
    os.makedirs(folder, mode=0o700, exist_ok=True)
    for left in Path(folder).iterdir():
        left.unlink()


def file_step(context, opened: job.Job) -> str:
    place = context.place
    draft = str(place.jobs / opened.id / "registry.db")
    if opened.facts["adopt"]:
        return adopt(place, opened.facts["adopt"], draft)
    place.hands(make_registry, executable=place.program, database=place.database, draft=draft)
    disk = os.statvfs(place.folder)
    return f"made an empty registry, {place.database} ({disk.f_bavail * disk.f_frsize >> 30} GB free)"


def steps(context, opened: job.Job) -> list[job.Step]:
    place = context.place = place_of(context, opened.facts["image"])

    def settle_settings() -> str:
        make_folders(place)
        write_settings(place, opened.facts["port"], opened.facts["image"])
        return f"settings are in {place.settings_file}"

    def note() -> str:
        place.hands(marking.put, database=place.database, place=note_registry(place), job=opened.id)
        return f"the registry is noted in {place.registry_file}"

    def is_noted() -> bool:
        noted, found = place.registry, place.hands(marking.read, database=place.database)
        return noted is not None and found is not None and noted["place"] == found["place"]

    def start() -> str:
        place.start()
        return f"avroreg is up: {place.url}"

    def schedule() -> str:
        place.enable()
        same = os.stat(place.folder).st_dev == os.stat(place.backups).st_dev
        if same:
            context.output.warn(f"the backups are on the disk of the registry: set AVROREG_AFTER_BACKUP in {place.settings_file}")
        return f"a checked backup each night, in {place.backups}; metrics each minute, in {place.metrics}"

    def put_back() -> None:
        remove(place.registry_file)
        place.hands(put_aside, database=place.database, folder=place.jobs / opened.id)

    return [
        job.Step("settings", settle_settings, lambda: place.backups.is_dir() and place.settings.port == opened.facts["port"] and place.settings_file.exists()),
        job.Step("file", lambda: file_step(context, opened), lambda: place.hands(exists, path=place.database)),
        job.Step("mark", note, is_noted, undo=put_back),
        job.Step("start", start, lambda: place.process() is not None, undo=place.stop),
        job.Step("timers", schedule, place.is_enabled, undo=place.disable),
    ]
