"""Back up, watch or restore a registry that no unit of this machine serves, such as a container's.

  folder backup F COPY        copies F while it is served, audits the copy, and writes it to a new file
  folder watch F OUT          writes metrics to OUT, for the textfile collector of Prometheus' node exporter
  folder restore BACKUP F     puts a backup in F's place, and uses up the lost ids. Stop the container first

The work is done as the owner of F's folder. A restore keeps the old files in `jobs` next to F. If it is
interrupted, run it again before the container starts.
"""

import os
import tempfile
import time
from pathlib import Path

from . import backup, drafting, incoming, replacement, restore, swap, watch_folder
from .files import write_text
from .hands import Hands, task
from .output import DONE, NO, Stop
from .places import Place


HERE = Path("/proc/self/cwd")


class Folder(Place):
    """A registry's file, and the folder around it. No unit belongs to it.

    The owner of a container's volume can't reach it by its path: the folders above are root's. So root
    changes to the folder, and the tasks use names below their own working folder. avroreg opens copies
    that lie elsewhere.
    """

    def __init__(self, database: Path, program: str, log: Path | None):
        super().__init__("folder")
        self.real = database.absolute().parent
        if not self.real.is_dir():
            raise Stop(NO, f"there is no folder {self.real}")
        self.program, self.access_log = program, (log or Path("/nonexistent")).absolute()
        os.chdir(self.real)
        self.folder, self.database, self.jobs = HERE, HERE / database.name, HERE / "jobs"

    @property
    def owner(self) -> tuple[int, int]:
        found = os.stat(".")
        return found.st_uid, found.st_gid

    @property
    def hands(self) -> Hands:
        if self._hands is None:
            self._hands = Hands(*self.owner, cwd=str(HERE))
        return self._hands

    def shown(self, text: str) -> str:
        """The text with paths as a person knows them."""
        return text.replace(str(HERE), str(self.real))

    def process(self) -> int | None:
        return None


def add(parser) -> None:
    parser.add_argument("action", choices=["backup", "watch", "restore"])
    parser.add_argument("source", metavar="F|BACKUP", type=Path, help="backup, watch: the registry's file; restore: the backup")
    parser.add_argument("target", metavar="COPY|OUT|F", type=Path, help="backup: a new file; watch: the file of metrics; restore: the registry's file")
    parser.add_argument("--program", default="/usr/bin/avroreg", help="avroreg (/usr/bin/avroreg)")
    parser.add_argument("--log", metavar="FILE", type=Path, help="watch, restore: nginx's log, with its older files next to it")
    parser.add_argument("--url", default="http://127.0.0.1:8081", help="watch: where the registry answers (http://127.0.0.1:8081)")
    parser.add_argument("--user-file", metavar="FILE", type=Path, help="watch: a file with one line, USER:PASSWORD, if nginx asks for a password")
    restore.add_ids(parser)


@task
def make_folder(folder: str) -> None:
    os.makedirs(folder, mode=0o700, exist_ok=True)


@task
def make_temporary_folder() -> str:
    drafting.remove_left(drafting.DISK)
    return tempfile.mkdtemp(prefix=f"{drafting.PREFIX}{os.getpid()}-", dir=drafting.DISK)


@task
def unfinished(database: str, jobs: str) -> str | None:
    """The folder of a restore that was killed during its renames: its draft is whole, and it has old files."""
    for folder in sorted(Path(jobs).glob("*")):
        if (folder / "new" / swap.READY).exists() and (folder / "new" / os.path.basename(database)).exists() and list(folder.glob("old/*")):
            return str(folder)
    return None


@task
def refuse_served(database: str) -> None:
    """Nobody may have F open."""
    with swap.locked(database):
        pass


@task
def note_difference(file: str, lines: list) -> None:
    write_text(file, "\n".join(lines) + "\n", 0o600)


def back_up(context, place: Folder) -> int:
    target = context.options.target
    context.agree([("backup", f"of {context.options.source} to {target}")], asks=False)
    work = Path(place.hands(make_temporary_folder))
    try:
        backup.report(context.output, {"record": backup.write_to(place, work, target), "removed": [], "problems": []})
    finally:
        place.hands(incoming.remove_folder, folder=work)
    return DONE


def put_in_place(context, place: Folder, job: str) -> None:
    """Swaps, and says what was lost."""
    folder = place.jobs / job
    place.hands(swap.swap, database=place.database, folder=folder, place=job, job=job)
    ready = place.hands(swap.state, database=place.database, folder=folder, job=job)["ready"]
    place.hands(note_difference, file=folder / "difference.txt", lines=ready["differences"] or ["The old file is gone."])
    context.output.ok(place.shown(f"{place.database} is the backup, with {ready['schemas']} schemas. The old files and difference.txt are in {folder}"))
    if ready["conflict"]:
        context.output.warn("ids may have two schemas: change the key of nginx's cache, and restart the consumers")
    context.output.next("start the container")


def restore_into(context, place: Folder) -> int:
    options = context.options
    try:
        place.hands(make_folder, folder=place.jobs)
        place.hands(refuse_served, database=place.database)
        if left := place.hands(unfinished, database=place.database, jobs=place.jobs):
            context.agree([("finish", place.shown(f"the restore in {left}, which was interrupted"))], asks=False)
            put_in_place(context, place, os.path.basename(left))
            return DONE
        source = incoming.bring(place, options.source, place.jobs / incoming.FOLDER)
        facts = replacement.facts_of(place, source, str(options.source), incoming.time_of(options.source), options)
        known = replacement.known_of(place, facts, replacement.log_since(place, facts["since"]))
        found = place.hands(drafting.survey, avroreg=place.program, source=source, database=place.database, folder=place.jobs, place=drafting.UNMARKED,
                            process=None, known=known)
        context.agree([(name, place.shown(text)) for name, text in replacement.plan_rows(place, facts, found, None)])
        job = time.strftime("%Y%m%dT%H%M%SZ", time.gmtime())
        made = place.hands(drafting.make, avroreg=place.program, source=source, database=place.database, folder=place.jobs / job, place=drafting.UNMARKED,
                           known=known)
        context.output.ok(f"draft made, {made['last'] - made['first'] + 1:,} ids used up, audit holds")
        put_in_place(context, place, job)
    finally:
        place.hands(incoming.remove_folder, folder=place.jobs / incoming.FOLDER)
    return DONE


def run(context) -> int:
    options = context.options
    act = {"backup": back_up, "watch": watch_folder.run, "restore": restore_into}[options.action]
    file = options.target if options.action == "restore" else options.source
    options.source, options.target = options.source.absolute(), options.target.absolute()
    options.user_file = options.user_file and options.user_file.absolute()
    place = Folder(file, options.program, options.log)
    try:
        return act(context, place)
    except Stop as stop:
        raise Stop(stop.status, place.shown(stop.message), *stop.next_commands) from stop
    finally:
        place.close()
