"""Makes each disk call of the built program fail in turn, and checks the responses and the file. faults.sh runs it.

First it counts a run's disk calls: writes, changes of length and syncs. Then, for each call, it makes the call fail in each
way, or kills the process in the call. A kill loses a part of the unsynced writes, which a seed chooses. It requires of each run:

- The first responses equal, byte for byte, those of a run without faults. Each later response is 50001. A killed process has
  no later response. If the database can't be opened, there is no response at all.
- The file contains exactly the effects of the requests with equal responses. The effect of the next request may be in it,
  too. If no request succeeded, the file may have no table.
- If the requests are sent again without faults, the responses, tables and listings are those of a run without faults.
"""

import functools
import hashlib
import os
import signal
import sys
import time

from known import TRIALS, check_rerun, reference, split_responses, run_parallel, run_kinds

from harness.messages import build_error_response, build_request, check_responses
from harness.program import CaseError, raise_difference, read_file, run_program, start_program, temporary_folder, write_file
from harness.reading import read_cases
from harness.sessions import execute_steps, parse_session

LIBRARY = os.environ["FAULTS"]

# The ways in which a call fails. A seed chooses the lost writes; with None nothing is lost.
WAYS = {"error": (None, 0), "once": (None, 0), "full": (None, 0), "kill": range(int(os.environ.get("SEEDS", "30")))}
LIES = {"FAULT_LIE": "1"} if os.environ.get("LIE") == "1" else {}
FAILED = build_error_response(50001)
UNOPENED = (2, b"avroreg: cannot open F\n")
KILLED = (-signal.SIGKILL, b"")

# Writes after which the log is almost as long as it may become. The session's writes then cause a checkpoint.
MANY = tuple(build_request("PUT", "/config", f'{{"compatibility":"{it}"}}') for it in ("NONE", "FULL") * 244)


class Tried:
    """The number of runs with a fault so far, and how many of them were killed."""

    runs = killed = 0


class Session:
    """The requests of a session, and the files over which it runs. The requests in `before` made these files."""

    def __init__(self, it, before=(), files={}):
        self.it, self.messages, self.ends = it, tuple(it.requests), (it.end[0], it.end[1].encode())
        self.before, self.files, self.seen = before, files, set()
        check_responses(it.responses, reference(self.messages).ran, it.end)

    def attempt(self, failure, seed=None):
        """Makes a run with a fault, or without one, and checks it. Returns its number of calls, or None if it was killed."""
        env = {"LD_PRELOAD": LIBRARY, "FAULT_COUNT": "count", **LIES}
        env |= {"FAULT": failure} if failure else {}
        env |= {"FAULT_SEED": str(seed)} if seed is not None else {}
        with temporary_folder() as folder:
            for name, content in self.files.items():
                write_file(folder, name, content)
            ran = run_program(["run", "--db", "F"], b"".join(self.messages), folder, env=env)
            counted = read_file(folder, "count")
            executed = self.check_run(ran, failure)
            # Equal responses and files were checked before.
            left = (*executed, *(digest(read_file(folder, it)) for it in ("F", "F-wal")))
            if left not in self.seen:
                check_rerun(folder, executed, self.messages, self.ends)
                execute_steps(self.it, folder)
                self.seen.add(left)
        return counted and int(counted)

    def check_run(self, ran, failure):
        """The possible lists of executed requests: one or two. Raises CaseError if the responses or the program's end are wrong."""
        answers, rest = split_responses(ran.stdout)
        right = reference(self.before + self.messages).answers[len(self.before) :]
        equal_count = next((at for at, (due, came) in enumerate(zip(right, answers)) if due != came), len(answers))
        ends = (ran.returncode, ran.stderr)
        due = {KILLED: right[:equal_count], UNOPENED: []}.get(ends, right[:equal_count] + [FAILED] * (len(right) - equal_count))
        if rest or answers != due:
            raise_difference("the responses", due, answers + [rest])
        if ends not in ([KILLED] if failure.startswith("kill") else [self.ends, UNOPENED] if failure else [self.ends]):
            raise_difference("the end", self.ends, ends)
        executed = self.before + self.messages[:equal_count]
        if ends == UNOPENED or equal_count == len(right):
            return [executed]
        return [executed, executed + self.messages[equal_count : equal_count + 1]]


def digest(content):
    return content and hashlib.sha256(content).digest()


def each_call(name, session):
    """Makes a run without a fault, and then the runs in which each call fails in turn."""

    def attempt(failure, seed):
        try:
            return session.attempt(failure, seed)
        except CaseError as wrong:
            at = f"FAULT={failure}" + (f" FAULT_SEED={seed}" if seed is not None else "")
            raise CaseError(f"{name}, {at}, of {calls} calls: {wrong}") from None

    began, calls = time.monotonic(), 0
    calls = attempt("", None)
    tries = [(f"{kind}:{nth}", seed) for nth in range(1, calls + 1) for kind, seeds in WAYS.items() for seed in seeds]
    for (failure, _), _ in run_parallel(attempt, tries):
        Tried.runs += 1
        Tried.killed += failure.startswith("kill")
    print(f"{name}: {calls} calls, {len(tries)} runs, {time.monotonic() - began:.0f} s", flush=True)


def files_after_kill(messages):
    """Kills a run after its responses to these requests, and returns its file and its log."""
    with temporary_folder() as folder:
        process = start_program(["run", "--db", "F"], folder)
        for message, due in zip(messages, reference(messages).answers):
            process.stdin.write(message)
            process.stdin.flush()
            while due:
                due = due[len(os.read(process.stdout.fileno(), len(due))) :]
        process.kill()
        process.communicate()
        return {name: read_file(folder, name) for name in ("F", "F-wal")}


def with_closed_file(it, half):
    return Session(it, half, {"F": reference(half).file})


def with_log(it, half):
    return Session(it, half, files_after_kill(half))


def with_long_log(it, _):
    session = Session(it, MANY, files_after_kill(MANY))
    if files_after_kill(MANY + session.messages)["F"] == session.files["F"]:
        raise CaseError("the session with the long log causes no checkpoint")
    return session


STARTS = {
    "new": ("over a new file", lambda it, _: Session(it)),
    "closed": ("over a file that was closed", with_closed_file),
    "log": ("over a file and its log", with_log),
    "long": ("over a file and a long log", with_long_log),
}


def try_start(name, start):
    """Makes each call of the session fail, over the files of this start."""
    (it, *_), _ = parse_session(*read_cases(f"{TRIALS}/faults/session"))
    each_call(name, start(it, tuple(it.requests[: len(it.requests) // 2])))


if __name__ == "__main__":
    kinds = {start_name: functools.partial(try_start, *start) for start_name, start in STARTS.items()}
    sys.exit(run_kinds(kinds, lambda: f"{Tried.runs} runs with a fault", lambda: f"{Tried.killed} of them killed"))
