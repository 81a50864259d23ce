"""Runs command lines over files, and checks the output, the status, and the files afterwards.

Before a command line:

    file NAME TEXT        a file, without a line end after the text; with `:=` it can have any bytes
    move NAME NEW, link NAME FILE    renames a file, makes a symbolic link
    sql FILE STATEMENT    executes a statement on a database
    given FILE            sends the requests below it to a run over the file
    hold FILE             starts a run that answers the requests below it and keeps the database open; `release` ends it, `kill` kills it
    connect FILE          a server that ends after as many connections as there are requests below it, each on its own connection
    alternate FILE        as `connect`, but two clients keep their connections, and send the requests in turn
    beside FILE KIND      sends the first request from other clients (dripping, mute, pipelining, idle or half-closed, see crowds.py),
                          and each further one from a client of its own, which must have its response in 5 seconds
    crowd FILE COUNT places|descriptors    more clients than COUNT send the request and keep their connections: the server must close
                          those that have been idle longest
    starve FILE           as `connect`, but the server has no descriptor for its second connection until several accepts failed

A server is followed by `prints` (the responses), `err` and `status`. `avroreg ARGUMENTS` is a command line. Requests and `bytes :=
EXPRESSION` below it are its standard input. With `> /dev/full` each write fails, with `< .` each read. After it come `out LINE`,
`err LINE`, `status N`, or `prints TEXT` for output without a line end; without them, it must print nothing and have status 0. `usage`
expects status 64 and a usage text, or a hint at `--help`. `unchanged FILE` and `missing FILE` look at a file, and `rows FILE SELECT ..`
at a database.
"""

import os
import shlex

from .clients import send_request
from .crowds import (
    KINDS,
    LATECOMERS,
    MAX_CLOSED,
    connect_without_descriptor,
    raise_limit,
    send_alternately,
    send_beside,
    send_in_crowd,
)
from .messages import build_request, parse_requests
from .program import (
    TIMEOUT_SECONDS,
    CaseError,
    check_outcome,
    completed_process,
    describe_request,
    raise_difference,
    read_file,
    run_program,
    serve,
    start_program,
    write_file,
)
from .tables import check_rows, execute_sql

EXPECTATIONS = ("out", "prints", "err", "status", "usage")


def check(case, folder):
    """Executes the lines of a case in the folder. Returns 1, the number of checks. Raises CaseError at the first difference."""
    execution = Execution(case, folder)
    try:
        for line in case.lines:
            execution.execute(line)
        execution.check_last_run()
    finally:
        execution.kill_others()
    return 1


class Execution:
    """The execution of a case in a folder.

    last_run  the last run of the program, with what the case expects of it; None if there is none, or if it was checked
    before    the contents of each file before the last `avroreg` line
    others    the running processes that `hold` started
    """

    def __init__(self, case, folder):
        self.case, self.folder = case, folder
        self.last_run, self.before, self.others = None, {}, []

    def execute(self, line):
        """Executes a line, or adds it to what is expected of the last run. Raises CaseError if a check fails, or if the line
        isn't valid here."""
        actions = {
            "avroreg": self.run_avroreg,
            "connect": self.connect_each,
            "alternate": self.alternate,
            "beside": self.send_beside,
            "crowd": self.send_in_crowd,
            "starve": self.starve,
            "file": self.make_file,
            "link": self.link_file,
            "move": self.rename_file,
            "given": self.run_requests,
            "sql": self.run_sql,
            "rows": self.compare_rows,
            "hold": self.hold_file,
            "release": self.release_file,
            "kill": self.release_file,
            "unchanged": self.check_file,
            "missing": self.check_file,
        }
        if line.keyword in EXPECTATIONS and self.last_run:
            self.last_run.expect(line.keyword, self.case.value(line.argument))
        elif line.keyword in actions:
            actions[line.keyword](line)
        else:
            raise CaseError(f"{line.location}: not valid here: {line.text}")

    def check_last_run(self):
        """Checks the last run, if it wasn't checked. Raises CaseError if its output or status isn't the expected one."""
        if self.last_run:
            self.last_run.check()
        self.last_run = None

    def file_name(self, line):
        """Returns the argument of a line that has only a file's name."""
        return self.case.substitute(line.argument)

    def run_avroreg(self, line):
        """Runs the program with the line's arguments and the requests below it, after checking the previous run."""
        self.check_last_run()
        self.before = {name: read_file(self.folder, name) for name in os.listdir(self.folder)}
        full_stdout, unreadable_stdin = line.argument.endswith(" > /dev/full"), line.argument.endswith(" < .")
        command = line.argument.removesuffix(" > /dev/full").removesuffix(" < .")
        arguments = shlex.split(self.case.substitute(command))
        stdin = b"".join(parse_requests(self.case, line))
        context = describe_request(f"{line.location}: avroreg {line.argument}", stdin)
        self.last_run = CheckedRun(context, run_program(arguments, stdin, self.folder, full_stdout, unreadable_stdin))

    def run_server(self, line, connections, client, requests=()):
        """Runs a server for this number of connections, after checking the previous run. Responses count as its output.

        line      its first argument is the server's file
        client    called as in `serve`; returns the responses, or the responses and a part of the server's standard error
        requests  the requests that error texts show
        """
        self.check_last_run()
        name = self.file_name(line).split(" ")[0]
        result, server = serve(self.folder, name, connections, client)
        responses, stderr = result if isinstance(result, tuple) else (result, b"")
        context = describe_request(f"{line.location}: avroreg serve --db {name}", b"\n".join(requests))
        process = completed_process(server.returncode, server.stdout + responses, stderr + server.stderr)
        self.last_run = CheckedRun(context, process)

    def connect_each(self, line):
        """Sends each request below the line on its own connection to a server."""
        requests = parse_requests(self.case, line)
        self.run_server(
            line,
            len(requests),
            lambda connect, _: b"".join(send_request(connect(), request) for request in requests),
            requests,
        )

    def alternate(self, line):
        """Sends the requests below the line in turn from two clients that keep their connections."""
        requests = parse_requests(self.case, line)
        self.run_server(line, 2, lambda connect, _: send_alternately(connect, requests), requests)

    def send_beside(self, line):
        """Sends each request below the line but the first to a server with clients of a kind, which send the first one."""
        requests = parse_requests(self.case, line)
        kind = line.argument.split(" ")[1]
        connections = KINDS[kind][0] + len(requests) - 1
        raise_limit(connections)
        self.run_server(line, connections, lambda connect, _: send_beside(connect, kind, requests), requests)

    def send_in_crowd(self, line):
        """Sends the request below the line from more clients than the server has places or descriptors for."""
        (request,) = parse_requests(self.case, line)
        _, count, what = line.argument.split(" ")
        places, lacks_descriptors = int(count), what == "descriptors"
        raise_limit(places)
        self.run_server(
            line,
            places + LATECOMERS,
            lambda connect, server: send_in_crowd(connect, server, request, places, lacks_descriptors),
        )
        self.last_run.process.stderr = unite_reports(self.last_run.process.stderr)

    def starve(self, line):
        """Sends the requests below the line to a server that has no file descriptor for its second connection at first."""
        requests = parse_requests(self.case, line)
        self.run_server(line, 2, lambda connect, server: connect_without_descriptor(connect, server, requests))

    def make_file(self, line):
        """Writes the file NAME with the contents TEXT."""
        name, _, text = line.argument.partition(" ")
        write_file(self.folder, self.case.substitute(name), self.case.value(text.strip(" ")))

    def link_file(self, line):
        """Creates the symbolic link NAME to FILE."""
        name, target = line.argument.split(" ")
        os.symlink(target, os.path.join(self.folder, name))

    def rename_file(self, line):
        """Renames the file NAME to NEW, after checking the last run."""
        self.check_last_run()
        name, new = (os.path.join(self.folder, path) for path in line.argument.split(" "))
        os.replace(name, new)

    def run_requests(self, line):
        """Runs the requests below the line over a file. Raises CaseError unless the run ends normally."""
        requests = b"".join(parse_requests(self.case, line))
        process = run_program(["run", "--db", self.file_name(line)], requests, self.folder)
        end = completed_process(process.returncode, b"", process.stderr)
        check_outcome(f"{line.location}: {line.text}", (0, "", ""), end)

    def run_sql(self, line):
        """Executes an SQL statement on a file, after checking the last run."""
        self.check_last_run()
        name, _, statement = line.argument.partition(" ")
        execute_sql(self.folder, self.case.substitute(name), self.case.substitute(statement))

    def compare_rows(self, line):
        """Checks that a statement returns the rows below the line."""
        name, _, statement = line.argument.partition(" ")
        check_rows(line.location, self.folder, self.case.substitute(name), self.case.substitute(statement), line.inner)

    def hold_file(self, line):
        """Starts another run over a file, sends it the requests below the line, and leaves it running after the last response.
        Raises CaseError if it ends before that."""
        other = start_program(["run", "--db", self.file_name(line)], self.folder)
        self.others.append(other)
        other.stdin.write(b"".join(parse_requests(self.case, line)) + build_request("GET", "/schemas/types"))
        other.stdin.flush()
        received = b""
        while not received.endswith(b'["AVRO"]'):
            part = other.stdout.read1(1 << 16)
            if not part:
                raise CaseError(f"{line.location}: the run over {line.argument} ended")
            received += part

    def release_file(self, line):
        """Ends the last run that `hold_file` started, or kills it if the line is `kill`."""
        if not self.others:
            raise CaseError(f"{line.location}: no run holds a file")
        other = self.others.pop()
        if line.keyword == "kill":
            other.kill()
        other.communicate(timeout=TIMEOUT_SECONDS)

    def check_file(self, line):
        """Checks that a file is as before the last `avroreg` line, or that it is missing if the line is `missing`."""
        name = self.file_name(line)
        actual, expected = read_file(self.folder, name), self.before.get(name) if line.keyword == "unchanged" else None
        if actual != expected:
            raise_difference(f"{line.location}: {line.text}", expected, actual)

    def kill_others(self):
        """Kills the runs that `hold_file` started and no line ended."""
        for other in self.others:
            other.kill()
            other.communicate()


def unite_reports(stderr):
    """Returns one line for the equal lines that a server prints, one for each time that it closes a connection."""
    lines = stderr.splitlines(keepends=True)
    return lines[0] if lines and len(lines) <= MAX_CLOSED and lines == lines[:1] * len(lines) else stderr


class CheckedRun:
    """A completed run of the program, and the output and status that the case expects: by default no output, and status 0."""

    def __init__(self, context, process):
        self.context, self.process = context, process
        self.stdout, self.stderr, self.status, self.is_usage = "", "", 0, False

    def expect(self, keyword, value):
        """Adds the expectation of one of the lines that EXPECTATIONS names."""
        if keyword == "out":
            self.stdout += f"{value}\n"
        elif keyword == "prints":
            self.stdout += value
        elif keyword == "err":
            self.stderr += f"{value}\n"
        elif keyword == "status":
            self.status = int(value)
        else:
            self.is_usage = True

    def check(self):
        """Compares the run with what is expected. Raises CaseError if they differ."""
        if self.is_usage:
            stderr = self.process.stderr.decode(errors="backslashreplace")
            shows_usage = "Usage:" in stderr or "try '--help'" in stderr
            self.status, self.stderr = 64, stderr if shows_usage else "(a text with Usage: or try '--help')"
        check_outcome(self.context, (self.status, self.stdout, self.stderr), self.process)
