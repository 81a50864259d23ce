"""Copies a running registry into a new file, with from-confluent.py. A private server serves the file meanwhile.

The script and the server run as the registry's user. A copy that was killed goes on where it was: each
write has a retry key.
"""

import contextlib
import os
import shutil
import subprocess
import sys
from collections.abc import Iterator
from dataclasses import dataclass
from pathlib import Path

from . import checked_copy, contents, drill, program
from .hands import CLEAN_PATH, task
from .output import ERROR, NO, Stop

SCRIPT = "from-confluent.py"
STATUSES = {1: NO, 2: ERROR, 3: ERROR}  # of the script
UNUSED = "from-confluent-unused"
TIED = ("setpriv", "--pdeathsig", "KILL")  # the program ends with this process
TRIES = 3  # another program may take the free port


@dataclass(frozen=True)
class Source:
    """The registry to read. `words` are options of the script."""

    url: str
    user: str | None = None
    password: str | None = None
    certificate: str | None = None  # the text of its authority's certificate
    words: tuple[str, ...] = ()
    used_ids: int = 0


def script() -> Path:
    """The script as it is installed, or in the sources."""
    here = Path(__file__).resolve().parents[1]
    found = [file for file in (here / SCRIPT, here.parent / "examples" / SCRIPT) if file.is_file()]
    if not found:
        raise Stop(ERROR, f"{here / SCRIPT} is missing: install avroreg again")
    return found[0]


def as_user(place) -> dict:
    """The options of Popen for a child with the registry's user."""
    uid, gid = place.owner
    who = {} if uid == os.geteuid() else {"user": uid, "group": gid, "extra_groups": []}
    return who | {"umask": 0o077, "cwd": "/", "start_new_session": True, "stdin": subprocess.DEVNULL}


@task
def prepare(avroreg: str, database: str, used_ids: int, certificate: str | None) -> None:
    """Makes the folder of a copy, and its file in which the first ids are used up. What a killed run has copied stays."""
    folder = os.path.dirname(database)
    os.makedirs(folder, mode=0o700, exist_ok=True)
    if certificate:
        Path(folder, "authority.pem").write_text(certificate, encoding="utf-8")
    if used_ids and not os.path.exists(database):
        draft = f"{database}.new"
        Path(draft).unlink(missing_ok=True)
        Path(draft + "-wal").unlink(missing_ok=True)
        use_up(avroreg, draft, used_ids)
        os.rename(draft, database)


def use_up(avroreg: str, database: str, count: int) -> None:
    """Uses up the ids from 1 to `count` of a new file. No version has them, and no subject is left."""
    texts = (f'{{"name":"from_confluent.unused_{number}","size":0,"type":"fixed"}}' for number in range(1, count + 1))
    requests = [("PUT", "/config", {"compatibility": "NONE"}), *(("POST", f"/subjects/{UNUSED}/versions", {"schema": text}) for text in texts),
                ("DELETE", f"/subjects/{UNUSED}"), ("DELETE", f"/subjects/{UNUSED}?permanent=true"), ("PUT", "/config", {"compatibility": "BACKWARD"})]
    replies = program.run(avroreg, database, requests)
    wrong = [reply for reply in replies if reply[0] != 200] or [reply for number, reply in enumerate(replies[1:count + 1], 1) if reply[1] != {"id": number}]
    if wrong:
        raise Stop(ERROR, f"avroreg didn't use up the ids 1 to {count}: {wrong[0]}")


@task
def finish(avroreg: str, database: str) -> dict:
    """Audits the copy, which then is one file. Returns its counts."""
    Path(database).with_name("authority.pem").unlink(missing_ok=True)
    if fault := checked_copy.audited(avroreg, database):
        raise Stop(ERROR, f"the copy can't be used: {fault}")
    return {what: len(program.listing(avroreg, database, what)) for what in ("subjects", "versions", "schemas")}


@task
def forget(folder: str) -> None:
    shutil.rmtree(folder, ignore_errors=True)


@contextlib.contextmanager
def served(place, database: Path) -> Iterator[str]:
    """The URL of a private server of the file. It ends with this process."""
    for _ in range(TRIES):
        port = drill.free_port()
        server = subprocess.Popen([*TIED, place.program, "serve", "--db", database, "--port", str(port)],
                                  stdout=subprocess.DEVNULL, stderr=subprocess.DEVNULL, env={"PATH": CLEAN_PATH}, **as_user(place))
        try:
            if drill.is_served(contents.Registry(f"http://127.0.0.1:{port}", "the copy"), server):
                yield f"http://127.0.0.1:{port}"
                return
        finally:
            server.kill()
            server.wait()
    raise Stop(ERROR, f"avroreg doesn't serve {database}")


def copy(place, source: Source, database: Path, output) -> dict:
    """Copies and compares, and audits the copy. Prints what the script says. Returns the copy's counts."""
    place.hands(prepare, avroreg=place.program, database=database, used_ids=source.used_ids, certificate=source.certificate)
    words = [*source.words, *(["--used-ids", str(source.used_ids)] if source.used_ids else []), *(["--from-user", source.user] if source.user else []),
             *(["--from-ca", str(database.with_name("authority.pem"))] if source.certificate else [])]
    environment = {"PATH": CLEAN_PATH, "LANG": "C.UTF-8", **({"FROM_PASSWORD": source.password} if source.password else {})}
    with served(place, database) as url:
        ran = subprocess.Popen([*TIED, sys.executable, "-I", script(), *words, "--", source.url, url], stdout=subprocess.PIPE, stderr=subprocess.STDOUT, text=True,
                               encoding="utf-8", errors="replace", env=environment, **as_user(place))
        lines = [line.rstrip("\n") for line in said(ran.stdout, output)]
    if status := ran.wait():
        raise Stop(STATUSES.get(status, ERROR), (lines[-1] if lines else f"status {status}").removeprefix(f"{SCRIPT}: "))
    return place.hands(finish, avroreg=place.program, database=database)


def said(lines, output) -> Iterator[str]:
    for line in lines:
        if not line.startswith(f"{SCRIPT}: "):
            output.text(line.rstrip("\n"))
        yield line
