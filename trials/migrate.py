"""Migrates files of layout 1 to layout 2, and checks the result. migrate.sh runs it.

It requires of each migration:

- Before it, every other subcommand reports the layout and leaves the file unchanged.
- The printed line has the number of rows of `versions`.
- Each row of the five old tables stays. The row `mode` and the new tables are those of a new registry.
- A retry with each kept key gets its kept reply and changes nothing.
- A second migration has nothing to do.
"""

import functools
import glob
import gzip
import json
import os
import signal
import sqlite3
import sys
from urllib.parse import quote

from known import TRIALS, LISTINGS, run_parallel, run_kinds, tables

from harness.messages import build_request, build_response
from harness.program import CaseError, check_outcome, raise_difference, run_program, start_program, temporary_folder, write_file
from harness.reading import read_cases
from harness.tables import database, execute_sql

OLD = ("texts", "versions", "levels", "kept")
NEW = ("modes", "evidence", "against")
NOTHING_TO_DO = "layout 2: nothing to do\n"
OLD_LAYOUT = "avroreg: F has layout 1, run migrate\n"
MEMORY = (2, b"", b"avroreg: out of memory\n")
KILLED = -signal.SIGKILL

# The ways in which a disk call fails. A seed chooses the lost writes; with None nothing is lost.
WAYS = {"error": (None,), "once": (None,), "full": (None,), "kill": range(int(os.environ.get("SEEDS", "5")))}

# The tables of layout 1, from tests/names.
NAMES = read_cases(f"{TRIALS}/../tests/command_lines/migrate")[0].names
FIRST = NAMES["FIRST"]


class Tried:
    """The numbers of migrated files and of retried keys so far."""

    files = keys = 0


def migrated_line(count):
    return f"layout 2: {count} versions kept\n"


def rows(folder):
    """The rows of the tables of layout 1 except `meta`, and the rows of `meta`."""
    with_log = {it: sorted(execute_sql(folder, "F", f"SELECT * FROM {it}")) for it in OLD}
    return with_log, sorted(execute_sql(folder, "F", "SELECT name, value FROM meta"))


def repeat(key, text):
    """The request of a kept command."""
    kind, *members = json.loads(text)
    level = lambda it: json.dumps({"compatibility": it})
    subject = quote(members[0], safe="")
    method, target, body = {
        "set-global": lambda: ("PUT", "/config", level(members[0])),
        "set-level": lambda: ("PUT", f"/config/{subject}", level(members[1])),
        "register": lambda: ("POST", f"/subjects/{subject}/versions", schema_of(*members[1:])),
        "delete-version": lambda: ("DELETE", f"/subjects/{subject}/versions/{quote(members[1], safe='')}{permanent(members)}", None),
        "delete-subject": lambda: ("DELETE", f"/subjects/{subject}{permanent(members)}", None),
    }[kind]()
    return build_request(method, target, body, [f"Registry-Retry-Key: {key}"])


def schema_of(text, is_supported):
    return json.dumps({"schema": text} | ({} if is_supported else {"schemaType": "PROTOBUF"}))


def permanent(members):
    return "?permanent=true" if members[-1] else ""


def retry_kept_keys(where, folder):
    """Retries each kept key. It must get its kept reply and change nothing."""
    before = tables(folder, "F")
    with sqlite3.connect(f"{folder}/F") as opened:
        kept = opened.execute("SELECT key, command, status, body FROM kept ORDER BY key").fetchall()
    opened.close()
    ran = run_program(["run", "--db", "F"], b"".join(repeat(key, text) for key, text, *_ in kept), folder)
    check_outcome(f"{where}: the kept keys", (0, "".join(build_response(*it[2:]).decode() for it in kept), ""), ran)
    if tables(folder, "F") != before:
        raise_difference(f"{where}: the tables after the retries", before, tables(folder, "F"))
    Tried.keys += len(kept)


def check_layout_error(where, folder):
    """Checks that every other subcommand reports the layout, and leaves the file unchanged."""
    before = tables(folder, "F")
    for arguments in (["run", "--db", "F"], ["serve", "--db", "F", "--port", "1"], *(["list", "--db", "F", it] for it in LISTINGS)):
        check_outcome(f"{where}: {' '.join(arguments)}", (2, "", OLD_LAYOUT), run_program(arguments, build_request("GET", "/config"), folder))
    if tables(folder, "F") != before:
        raise_difference(f"{where}: the tables after other subcommands", before, tables(folder, "F"))


def check_migrated(where, folder, before):
    """Checks that the tables have the rows from before, in layout 2."""
    (old, meta), (now, now_meta) = before, rows(folder)
    expected = sorted([it for it in meta if not it.startswith("layout|")] + ["layout|2", "mode|READWRITE"])
    if (old, expected) != (now, now_meta):
        raise_difference(f"{where}: the rows", (old, expected), (now, now_meta))
    more = [execute_sql(folder, "F", f"SELECT * FROM {it}") for it in NEW]
    if any(more) or execute_sql(folder, "F", "SELECT count(*) FROM sqlite_schema WHERE name = 'versions_of_id'") != ["1"]:
        raise_difference(f"{where}: the new tables and the index", [[], [], []], more)


def check_migration(where, folder):
    check_layout_error(where, folder)
    with temporary_folder() as copied:
        for it in os.listdir(folder):
            with open(f"{folder}/{it}", "rb") as file:
                write_file(copied, it, file.read())
        before = rows(copied)
    check_outcome(f"{where}: migrate", (0, migrated_line(len(before[0]["versions"])), ""), run_program(["migrate", "--db", "F"], folder=folder))
    if os.listdir(folder) != ["F"]:
        raise_difference(f"{where}: the files", ["F"], os.listdir(folder))
    check_migrated(where, folder, before)
    check_outcome(f"{where}: migrate again", (0, NOTHING_TO_DO, ""), run_program(["migrate", "--db", "F"], folder=folder))
    retry_kept_keys(where, folder)
    check_migrated(where, folder, before)
    listed = run_program(["list", "--db", "F", "versions"], folder=folder)
    check_outcome(f"{where}: list", (0, listed.stdout.decode(), ""), listed)
    if listed.stdout.count(b"\n") != len(before[0]["versions"]) + 1:
        raise_difference(f"{where}: lines", len(before[0]["versions"]) + 1, listed.stdout.count(b"\n"))
    Tried.files += 1


def unpack(name, folder):
    """Unpacks an old file as F, and its log if it has one."""
    for end in ("", "-wal"):
        packed = f"{TRIALS}/old-files/{name}.db{end}.gz"
        if os.path.exists(packed):
            with gzip.open(packed) as file:
                write_file(folder, f"F{end}", file.read())


def old_names():
    return sorted(os.path.basename(it).removesuffix(".db.gz") for it in glob.glob(f"{TRIALS}/old-files/*.db.gz"))


def old():
    for name in old_names():
        with temporary_folder() as folder:
            unpack(name, folder)
            check_migration(name, folder)
        print(f"{name}: migrated", flush=True)


def values(lines):
    """Rows as SQL values. None of their texts has a quote."""
    cell = lambda it: str(it) if isinstance(it, int) else f"'{it}'"
    return ", ".join(f"({', '.join(map(cell, it))})" for it in lines)


def many_keys():
    """A thousand versions in a hundred subjects, a thousand levels and a thousand errors, each with a retry key."""
    count = range(1, 1001)
    text = lambda n: f'{{"doc":"{n}","type":"int"}}'
    command = lambda *members: json.dumps(members, separators=(",", ":"))
    refusal = '{"error_code":40401,"message":"Subject not found"}'
    kept = [(f"r{n}", command("register", f"s{n % 100}", text(n), True), 200, f'{{"id":{n}}}') for n in count]
    kept += [(f"l{n}", command("set-level", f"t{n}", "FULL"), 200, '{"compatibility":"FULL"}') for n in count]
    kept += [(f"d{n}", command("delete-subject", f"u{n}", True), 404, refusal) for n in count]
    return FIRST(
        f"INSERT INTO texts VALUES {values((n, text(n)) for n in count)}",
        f"INSERT INTO versions VALUES {values((f's{n % 100}', (n - 1) // 100 + 1, n, int(n % 7 == 0)) for n in count)}",
        f"INSERT INTO levels VALUES {values((f't{n}', 'FULL') for n in count)}",
        f"INSERT INTO kept VALUES {values(kept)}",
    )


def many():
    with temporary_folder() as folder:
        write_file(folder, "F", many_keys())
        check_migration("3,000 keys", folder)
    print("3,000 keys: migrated", flush=True)


SMALL = functools.partial(FIRST, NAMES["INT"], NAMES["DELETED"], NAMES["OWN"], NAMES["REPLIES"])


def lines():
    """Checks each line that migrate prints, and the file after it."""

    def check_run(name, content, expected, full=False, arguments=("migrate", "--db", "F"), stays=True):
        with temporary_folder() as folder:
            if content is not None:
                write_file(folder, "F", content)
            check_outcome(name, expected, run_program([*arguments], folder=folder, full_stdout=full))
            there = sorted(os.listdir(folder))
            if stays and there != ([] if content is None else ["F"]):
                raise_difference(f"{name}: the files", content and ["F"], there)
            if stays and content is not None:
                with open(f"{folder}/F", "rb") as file:
                    if file.read() != content:
                        raise CaseError(f"{name}: the file changed")
            if full:
                check_outcome(f"{name}, and again", (0, NOTHING_TO_DO, ""), run_program([*arguments], folder=folder))

    line = lambda text: (2, "", f"avroreg: {text}\n")
    layout = lambda number: FIRST(f"UPDATE meta SET value = '{number}' WHERE name = 'layout'")
    check_run("kept", SMALL(), (0, migrated_line(3), ""), stays=False)
    check_run("layout 2", layout(2), (0, NOTHING_TO_DO, ""))
    check_run("layout 3", layout(3), line("F has layout 3, newer than this program"))
    check_run("no file", None, line("cannot open F"))
    check_run("no database", b"a text", line("cannot open F"))
    check_run("no byte", b"", line("F is not a registry"))
    check_run("another database", database("CREATE TABLE other (a TEXT) STRICT"), line("F is not a registry"))
    check_run("a row that no registry has", FIRST("INSERT INTO meta VALUES ('mode', 'READWRITE')"), line("F is not a registry"))
    check_run("standard output on a full disk", SMALL(), line("write failed"), full=True, stays=False)
    with temporary_folder() as folder:
        other = start_program(["run", "--db", "F"], folder)
        other.stdin.write(build_request("GET", "/schemas/types"))
        other.stdin.flush()
        while not other.stdout.read1(1 << 16).endswith(b'["AVRO"]'):
            pass
        check_outcome("a file that another process uses", line("cannot open F"), run_program(["migrate", "--db", "F"], folder=folder))
        other.communicate()
    print("lines: 10 cases have the right output and status", flush=True)


def check_either(where, folder, before, migrated, must_be_migrated=False):
    """Checks that the tables are those before or those after the migration. Then migrates the file if it isn't migrated."""
    found = tables(folder, "F")
    if found not in ([migrated] if must_be_migrated else [before, migrated]):
        raise_difference(f"{where}: the tables", migrated, found)
    expected = NOTHING_TO_DO if found == migrated else migrated_line(3)
    check_outcome(f"{where}: migrate again", (0, expected, ""), run_program(["migrate", "--db", "F"], folder=folder))
    if tables(folder, "F") != migrated:
        raise_difference(f"{where}: the tables after it", migrated, tables(folder, "F"))


def each_call(name, environment, tries_of, other_ends):
    """Makes a run that only counts the calls, and then one for each try. A try must end as without faults, or in one of `other_ends`.
    If it printed the line, the file must be migrated."""
    with temporary_folder() as folder:
        write_file(folder, "F", SMALL())
        before = tables(folder, "F")
        ran = run_program(["migrate", "--db", "F"], folder=folder, env={**environment({}), f"{name}_COUNT": "count"})
        check_outcome(name, (0, migrated_line(3), ""), ran)
        with open(f"{folder}/count") as file:
            calls = int(file.read().split()[0])
        os.remove(f"{folder}/count")
        migrated = tables(folder, "F")

    def attempt(tried):
        with temporary_folder() as folder:
            write_file(folder, "F", SMALL())
            ran = run_program(["migrate", "--db", "F"], folder=folder, env={**environment(tried), f"{name}_COUNT": "count"})
            actual, done = (ran.returncode, ran.stdout, ran.stderr), (0, migrated_line(3).encode(), b"")
            if actual not in (done, *other_ends):
                raise_difference(f"{tried}: the end", other_ends, actual)
            if os.path.exists(f"{folder}/count"):
                os.remove(f"{folder}/count")
            check_either(str(tried), folder, before, migrated, actual[1] == done[1])
            return actual == done

    tries = [(it,) for it in tries_of(calls)]
    succeeded = sum(done for _, done in run_parallel(attempt, tries))
    print(f"{name.lower()}: {calls} calls, {len(tries)} runs, {succeeded} succeeded", flush=True)
    Tried.files += len(tries)


def memory():
    each_call("REFUSE", lambda tried: {"LD_PRELOAD": os.environ["REFUSER"], **tried},
              lambda calls: [{"REFUSE": f"{nth}{rest}"} for nth in range(1, calls + 1) for rest in ("", "-")], [MEMORY])


def stops():
    def tries_of(calls):
        for nth in range(1, calls + 1):
            for kind, seeds in WAYS.items():
                for seed in seeds:
                    yield {"FAULT": f"{kind}:{nth}"} | ({} if seed is None else {"FAULT_SEED": str(seed)})

    each_call("FAULT", lambda tried: {"LD_PRELOAD": os.environ["FAULTS"], **tried}, tries_of,
              [(2, b"", b"avroreg: cannot open F\n"), *((KILLED, output, b"") for output in (b"", migrated_line(3).encode()))])


KINDS = {"old": old, "many": many, "lines": lines, "memory": memory, "stops": stops}


if __name__ == "__main__":
    sys.exit(run_kinds(KINDS, lambda: f"{Tried.files} files", lambda: f"{Tried.keys} kept keys retried"))
