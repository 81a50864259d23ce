"""What the trials share: the responses and the file of a run without faults, and the comparison with them."""

import concurrent.futures
import functools
import os
import re
import shutil
import sqlite3
import sys

sys.dont_write_bytecode = True
TRIALS = os.path.dirname(os.path.abspath(__file__))
sys.path.insert(0, f"{TRIALS}/../tests")

from harness.program import CaseError, raise_difference, read_file, run_program, temporary_folder
from harness.tables import execute_sql

LISTINGS = ("subjects", "versions", "schemas")
JOBS = int(os.environ.get("JOBS", os.cpu_count()))


def run_parallel(attempt, tries):
    """Calls `attempt` with each of the tries, and yields each try with its result, in order. JOBS calls run at a time, by
    default one for each processor. If a call raises, no further call starts."""
    with concurrent.futures.ThreadPoolExecutor(JOBS) as pool:
        futures = [pool.submit(attempt, *it) for it in tries]
        try:
            for it in range(len(futures)):
                yield tries[it], futures[it].result()
                futures[it] = None
        finally:
            for it in filter(None, futures):
                it.cancel()


def split_responses(output):
    """The complete responses at the front of the bytes, and the remaining bytes."""
    answers = []
    while head := re.match(rb"HTTP/1\.1 (?:[^\r]+\r\n)+?Content-Length: (\d+)\r\n(?:[^\r]+\r\n)*\r\n", output):
        end = head.end() + int(head[1])
        if end > len(output):
            break
        answers.append(output[:end])
        output = output[end:]
    return answers, output


def tables(folder, name):
    """The declarations and rows of a file and its log, read from a copy. Empty if they are no database or have no table."""
    with temporary_folder() as copied:
        for it in (name, f"{name}-wal"):
            if read_file(folder, it) is not None:
                shutil.copy(f"{folder}/{it}", copied)
        try:
            found = execute_sql(copied, name, "SELECT name FROM sqlite_schema WHERE type = 'table' ORDER BY name")
        except sqlite3.DatabaseError:
            return []
        declarations = [execute_sql(copied, name, "SELECT type, name, sql FROM sqlite_schema ORDER BY name")] if found else []
        return declarations + [sorted(execute_sql(copied, name, f"SELECT * FROM {it}")) for it in found]


def listings(folder):
    return [run_program(["list", "--db", "F", it], folder=folder).stdout for it in LISTINGS]


class Reference:
    """A run without faults over a new file: its responses, tables, listings and file."""

    def __init__(self, messages):
        with temporary_folder() as folder:
            self.ran = run_program(["run", "--db", "F"], b"".join(messages), folder)
            self.answers, rest = split_responses(self.ran.stdout)
            if rest:
                raise CaseError(f"without faults, the output ends inside a response: {rest}")
            self.tables, self.listings, self.file = tables(folder, "F"), listings(folder), read_file(folder, "F")


@functools.cache
def reference(messages):
    return Reference(messages)


def check_rerun(folder, possible, messages, ends):
    """Checks the file: it must have the tables of a run of one of the lists in `possible`. After an empty list it may have no
    table. Then sends the messages of a session, which must end as `ends` says. The responses, tables and listings must be
    those of a run without faults."""
    found = tables(folder, "F")
    fitting = [it for it in possible if found == reference(it).tables or not it and not found]
    if not fitting:
        raise_difference("the tables afterwards", [reference(it).tables for it in possible], found)
    second = run_program(["run", "--db", "F"], b"".join(messages), folder)
    if (second.returncode, second.stderr) != ends:
        raise_difference("the end of the second run", ends, (second.returncode, second.stderr))
    expected = [(reference(it + messages), len(it)) for it in fitting]
    actual = (split_responses(second.stdout)[0], tables(folder, "F"), listings(folder))
    if actual not in [(it.answers[count:], it.tables, it.listings) for it, count in expected]:
        raise_difference("the second run: responses, tables and listings", [(it.answers[count:], it.tables) for it, count in expected], actual)


def run_kinds(kinds, runs, rest):
    """Tries the kinds that the arguments name, or all of them, up to the first wrong response. Prints the number of runs, and
    returns the script's status."""
    try:
        for kind in sys.argv[1:] or kinds:
            if kind not in kinds:
                raise CaseError(f"{kind} is none of {', '.join(kinds)}")
            kinds[kind]()
    except CaseError as wrong:
        print(f"WRONG {wrong}\n{runs()} were right before")
        return 1
    print(f"{runs()}, {rest()}, no wrong response")
    return 0
