"""Makes each allocation of the built programs fail in turn, and checks their output. refuse_memory.sh runs it.

First it counts a run's allocations. Then it makes two runs for each allocation. In one only this allocation fails, and in
the other all later ones fail too. It requires of each run:

- A session: a request with response 50001 has no effect. Each other response equals, byte for byte, that of a run without
  failures of the other requests. If the run ends early, it ends with `out of memory`. Its output is then a number of
  complete responses and a beginning of the next one.
- A session over a file: afterwards the tables are those of a run without failures. The request with the incomplete response
  may be in them or not. If the same requests are sent again without failures, the responses, tables and listings are those
  of a run without failures.
- A command line: the same output and status as without failures. Or it ends with `out of memory`, after complete lines.
- The benchmark: the same verdicts, or an end with `out of memory`.
"""

import copy
import functools
import os
import re
import shlex
import shutil
import sys
import time

from known import TRIALS, check_rerun, reference, split_responses, run_parallel, run_kinds, tables

from harness.messages import NORMAL_END, build_error_response, check_responses
from harness.program import PROGRAM, CaseError, raise_difference, read_file, run_program, temporary_folder, write_file
from harness.reading import read_cases
from harness.sessions import Run, parse_session
from harness.command_lines import Execution

BENCH, REFUSER = os.environ["BENCH"], os.environ["REFUSER"]
MEMORY = (2, b"avroreg: out of memory\n")

# The benchmark's arguments, and how many of its allocations fail. The first 3,778, when they were counted, are those of
# reading two schemas and of the first calls. The benchmark then repeats the same calls until it has measured their time.
BENCH_ARGUMENTS = ("resolve", "cycles", "40")
BENCH_ALLOCATIONS = 4000
BENCH_MEMORY = (b"Error: out of memory\n", b"Error: memory allocation failed\n")


class Tried:
    """The numbers of runs with failing allocations and of failed allocations so far."""

    runs = failed = 0


def run_failing(failures, arguments, given=b"", folder=None, program=PROGRAM):
    """Makes a run with these failures (`N`, `N-` or none). Returns it, its number of allocations, and how many of them failed."""
    with temporary_folder() as counting:
        file = f"{counting}/count"
        ran = run_program(arguments, given, folder, program=program, env={"LD_PRELOAD": REFUSER, "REFUSE_COUNT": file, "REFUSE": failures})
        counted = read_file(counting, "count")
    if ran.returncode < 0 or counted is None:
        raise CaseError(f"signal {-ran.returncode} ended the program")
    return ran, *map(int, counted.split())


def try_each_failure(name, attempt, skipped=0, most=None):
    """Makes an attempt without a failure, and then two for each allocation after the first `skipped` ones, up to the `most`th.
    An attempt returns what `run_failing` returns. Returns the number of the last allocation that the run needs to write
    anything."""

    def is_early(ran):
        return (ran.returncode, ran.stderr) != (whole.returncode, whole.stderr)

    def try_once(failures):
        try:
            ran, made, failed = attempt(failures)
            if failures != "0" and not failed:
                raise CaseError("the run made fewer allocations than before")
            return ran, made, failed
        except CaseError as wrong:
            raise CaseError(f"{name}, REFUSE={failures}, of {allocations} allocations: {wrong}") from None

    began, allocations, early, needed = time.monotonic(), 0, 0, skipped
    whole, allocations, _ = try_once("0")
    nths = range(skipped + 1, min(allocations, most or allocations) + 1)
    tries = [(f"{nth}{rest}",) for nth in nths for rest in ("", "-")]
    for (failures,), (ran, _, failed) in run_parallel(try_once, tries):
        Tried.runs += 1
        Tried.failed += failed
        early += is_early(ran)
        if failures.endswith("-") and is_early(ran) and not ran.stdout:
            needed = int(failures[:-1])
    took = time.monotonic() - began
    print(f"{name}: {allocations} allocations, {len(tries)} runs, {early} ended early, {took:.0f} s", flush=True)
    return needed


# Sessions


class Session:
    """The messages of a run and its required end, over a file that the messages in `before` made. A session that ends in a
    fault isn't sent twice, since a fault closes the connection."""

    def __init__(self, it, before=(), twice=False):
        self.before, self.messages, self.ends = before, tuple(it.requests), (it.end[0], it.end[1].encode())
        if not before:
            check_responses(it.responses, reference(self.messages).ran, it.end)
        self.messages *= 2 if twice and it.end == NORMAL_END else 1
        self.failures = [build_error_response(50001, closes=b"\r\nConnection: close\r\n" in it) for it in self.answers(before + self.messages)]
        self.seen = set()

    def answers(self, messages):
        """The responses of a run without failures to the messages after those in `before`."""
        return reference(messages).answers[len(self.before) :]

    def check_run(self, ran, failed):
        """The possible lists of executed messages: two if a response is incomplete, since its message may be executed or not.
        Raises CaseError if the responses or the end are wrong. Each failed allocation may cause at most one 50001."""
        answers, rest = split_responses(ran.stdout)
        if len(answers) > len(self.messages):
            raise CaseError(f"{len(answers)} responses to {len(self.messages)} messages")
        given = [*zip(self.messages, answers, self.failures)]
        executed = self.before + tuple(message for message, answer, failure in given if answer != failure)
        expected = iter(self.answers(executed))
        due = [failure if answer == failure else next(expected) for _, answer, failure in given]
        if answers != due or len(answers) - len(executed) + len(self.before) > failed:
            raise_difference(f"the responses after {failed} failed allocations", due, answers)
        found = [executed] if len(answers) == len(self.messages) else [executed, executed + self.messages[len(answers) :][:1]]
        self.check_end(ran, len(answers), rest, reference(found[-1]).answers[len(executed) :])
        return [self.without_fault(it) for it in found]

    def check_end(self, ran, count, rest, following):
        """Checks the output after `count` complete responses, and the end. At most one more response follows."""
        ends = (ran.returncode, ran.stderr)
        beginnings = [*following, self.failures[count]] if following else [b""]
        if (following or ends != self.ends) and ends != MEMORY:
            raise_difference(f"the end after {count} responses", MEMORY, ends)
        if not any(it.startswith(rest) for it in beginnings):
            raise_difference(f"the output after {count} responses", beginnings, rest)

    def without_fault(self, messages):
        """The messages without a fault at their end. A fault changes nothing, and the program reads no message after it."""
        return messages[:-1] if self.ends[0] and messages[-1:] == self.messages[-1:] else messages

    def in_memory(self, failures):
        ran, made, failed = run_failing(failures, ["run"], b"".join(self.messages))
        self.check_run(ran, failed)
        return ran, made, failed

    def over_a_file(self, failures):
        with temporary_folder() as folder:
            if self.before:
                write_file(folder, "F", reference(self.before).file)
            ran, made, failed = run_failing(failures, ["run", "--db", "F"], b"".join(self.messages), folder)
            executed = self.check_run(ran, failed)
            # Equal responses and files were checked before.
            bytes_left = (*executed, read_file(folder, "F"), read_file(folder, "F-wal"))
            if bytes_left not in self.seen:
                check_rerun(folder, executed, self.messages, self.ends)
                self.seen.add(bytes_left)
        return ran, made, failed


def sessions(form, attempt, has_before=False, **options):
    """Tries a run without messages first. The others skip the allocations that this run needs before it reads."""
    (before, _), *runs = [(parse_session(it)[0][0], it.name) for it in read_cases(f"{TRIALS}/refuse_memory/sessions")]
    options["before"] = tuple(before.requests) if has_before else ()
    needed = try_each_failure(f"{form}, no message", functools.partial(attempt, Session(Run(), **options)))
    for it, name in runs:
        try_each_failure(f"{form}, {name}", functools.partial(attempt, Session(it, **options)), needed)


# Command lines


class CommandLine(Execution):
    """The files and the command line of a case. Each run with a failure has its own copy of the files."""

    def run_avroreg(self, line):
        self.arguments, self.files = shlex.split(self.case.substitute(line.argument)), shutil.copytree(self.folder, f"{self.kept}/files")
        super().run_avroreg(line)
        self.due = self.last_run

    def attempt(self, failures):
        with temporary_folder() as inner:
            folder = shutil.copytree(self.files, f"{inner}/files")
            ran, made, failed = run_failing(failures, self.arguments, folder=folder)
            if (ran.returncode, ran.stderr) == MEMORY:
                if not self.due.stdout.encode().startswith(ran.stdout) or ran.stdout and not ran.stdout.endswith(b"\n"):
                    raise_difference("the output", self.due.stdout, ran.stdout)
            else:
                due = copy.copy(self.due)
                due.process = ran
                due.check()
            for name in os.listdir(self.files):
                self.check_unchanged(folder, name)
        return ran, made, failed

    def check_unchanged(self, folder, name):
        """Checks that a file is unchanged. Of a database only the tables count."""
        before, after = read_file(self.files, name), read_file(folder, name)
        if before != after and (not before.startswith(b"SQLite") or tables(self.files, name) != tables(folder, name)):
            raise_difference(f"the file {name}", before, after)


def command_lines():
    """Tries each command line. Listings of equal files open them in the same way, so later ones skip the allocations that the
    first one needs before it prints."""
    needed = {}
    for case in read_cases(f"{TRIALS}/refuse_memory/command_lines"):
        with temporary_folder() as folder, temporary_folder() as kept:
            scene = CommandLine(case, folder)
            scene.kept = kept
            for line in case.lines:
                scene.execute(line)
            opening = (scene.arguments[0] == "list" and read_file(scene.files, "F")) or case.name
            needed[opening] = try_each_failure(case.name, scene.attempt, needed.get(opening, 0))


# The benchmark


def bench():
    def attempt(failures):
        ran, made, failed = run_failing(failures, BENCH_ARGUMENTS, program=BENCH)
        found_lines = re.findall(rb"^.* places$|^  resolves: .*$|^  resolves_plain: .*$", ran.stdout, re.M)
        if failures == "0":
            verdicts.extend(found_lines)
        if (ran.returncode, found_lines, ran.stderr) not in ((0, verdicts, b""), *((1, [], it) for it in BENCH_MEMORY)):
            raise_difference("the verdicts", verdicts, (ran.returncode, ran.stdout, ran.stderr))
        return ran, made, failed

    verdicts = []
    try_each_failure(f"bench_schemas {' '.join(BENCH_ARGUMENTS)}", attempt, most=BENCH_ALLOCATIONS)
    if len(verdicts) != 3 or not all(b"places" in it or b": true" in it for it in verdicts):
        raise CaseError(f"the benchmark printed no verdicts: {verdicts}")


KINDS = {
    "memory": lambda: sessions("in memory", Session.in_memory, twice=True),
    "new": lambda: sessions("over a new file", Session.over_a_file),
    "old": lambda: sessions("over a file with a registry", Session.over_a_file, has_before=True),
    "lines": command_lines,
    "bench": bench,
}


if __name__ == "__main__":
    sys.exit(run_kinds(KINDS, lambda: f"{Tried.runs} runs with failures", lambda: f"{Tried.failed} failed allocations"))
