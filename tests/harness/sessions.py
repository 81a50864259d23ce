"""Sends requests to a new registry, and compares the bytes of the responses.

Each session runs in memory, over a file, and through a socket. With `cut at every byte`, it also runs with each shorter prefix of
its input. With `in pieces`, it repeats its requests in pieces of 1 to 64 bytes, over standard input and through a socket.

A request is a method, a target and an optional body: a literal text, `schema S` for `{"schema":".."}`, `level L` for
`{"compatibility":"L"}`, or `mode M` for `{"mode":"M"}`. `[KEY]` before the method is the retry key. Below it are further header
fields. `bytes` sends the lines below it: each begins with a bar, which isn't sent, nor is a space after it; CR LF is between
them, and spaces at the end of a line are dropped. `bytes := EXPRESSION` sends the value of an expression.

A response is a status and a body, or only an error code. If it has `Allow` or `Connection: close`, they stand below it; all further
fields are always compared. A request without a response below it gets none, as after a request that closes the connection. `ends
malformed` means that the run ends with `malformed input`.

These lines end a run, and what follows is another run over the same file; a session with more than one run doesn't run in
memory: `restart`; `list subjects`, `list versions` and `list schemas` (the listing is below); `audit evidence holds` or `audit
evidence does not hold`; `rows SELECT ..` (the rows are below, with a bar between cells); `sql STATEMENT`, which changes the file.
"""

import re
import socket

from .clients import PIECE_LENGTHS, repeat_in_pieces, run_in_pieces, send_in_pieces
from .messages import MALFORMED_END, NORMAL_END, check_responses, parse_request, parse_response
from .program import CaseError, check_outcome, completed_process, describe_request, run_program, serve, temporary_folder
from .tables import check_rows, execute_sql

CUT_AT_EVERY_BYTE, IN_PIECES = "cut at every byte", "in pieces"
AUDIT_STATUSES = {"evidence holds": 0, "evidence does not hold": 1}


class Run:
    """One run of the program in a session.

    requests   the bytes of each request
    responses  the expected responses, as (context for error texts, bytes)
    end        the expected status and standard error
    steps      what to do with the file after the run, as (location, keyword, argument, lines below)
    """

    def __init__(self):
        self.requests, self.responses, self.end, self.steps = [], [], NORMAL_END, []

    def input(self):
        """Returns the bytes of all requests."""
        return b"".join(self.requests)


def check(case, folder):
    """Checks a session in each form. Returns 1, the number of checks. Raises CaseError at the first difference."""
    runs, options = parse_session(case)
    if len(runs) == 1:
        check_responses(runs[0].responses, run_program(["run"], runs[0].input()), runs[0].end)
    if CUT_AT_EVERY_BYTE in options:
        check_each_cut(runs[0])
    if IN_PIECES in options:
        check_in_pieces(runs[0], folder)
    for form, check_run in {"over a file": check_over_file, "through a socket": check_through_socket}.items():
        with temporary_folder() as run_folder:
            try:
                for run in runs:
                    if run.requests:
                        check_run(run, run_folder)
                    execute_steps(run, run_folder)
            except CaseError as error:
                raise CaseError(f"{form}, {error}") from None
    return 1


def parse_session(case):
    """Returns the runs of a session, and its options. `restart` ends a run, and so do lines that use the file."""
    runs, options = [Run()], []
    for line in case.lines:
        if line.text in (CUT_AT_EVERY_BYTE, IN_PIECES):
            options.append(line.text)
        elif line.text == "restart":
            runs.append(Run())
        elif line.keyword in ("list", "rows", "sql", "audit"):
            inner = [case.substitute(text) for text in line.inner]
            runs[-1].steps.append((line.location, line.keyword, case.substitute(line.argument), inner))
        else:
            if runs[-1].steps:
                runs.append(Run())
            parse_message(case, line, runs[-1])
    return runs, options


def parse_message(case, line, run):
    """Adds the line to the run: a request, a response, or how the run ends. Raises CaseError if the line is none of them."""
    request = parse_request(case, line)
    if request is not None:
        run.requests.append(request)
    elif line.text == "ends malformed":
        run.end = MALFORMED_END
    elif re.fullmatch(r"\d{3}|\d{5}", line.keyword):
        # (a request has one response, unless `bytes` sends several requests)
        request = run.requests[min(len(run.responses), len(run.requests) - 1)] if run.requests else b""
        run.responses.append((describe_request(line.location, request), parse_response(case, line)))
    else:
        raise CaseError(f"{line.location}: neither a request nor a response: {line.text}")


def check_each_cut(run):
    """Runs the program with each proper prefix of the run's input. Each complete request must have its response. The run must end
    as malformed if the last request is incomplete."""
    whole = run.input()
    ends = [sum(map(len, run.requests[: count + 1])) for count in range(len(run.requests))]
    for size in range(len(whole)):
        count = sum(end <= size for end in ends)
        is_between_requests = size == 0 or size in ends
        process = run_program(["run"], whole[:size])
        check_responses(run.responses[:count], process, NORMAL_END if is_between_requests else MALFORMED_END)


def check_in_pieces(run, folder):
    """Repeats the run's requests in pieces of each length, over standard input and through a socket, and checks that each
    repetition has the same responses."""
    pieces, responses = repeat_in_pieces(run.input()), run.responses * len(PIECE_LENGTHS)
    check_responses(responses, run_in_pieces(["run"], pieces, folder), run.end)
    received, server = serve(folder, "P", 1, lambda connect, _: send_in_pieces(connect(), pieces))
    check_outcome("the end of the server", (0, "", ""), server)
    check_responses(responses, completed_process(0, received, b""), NORMAL_END)


def check_over_file(run, folder):
    """Checks a run over a file, with the requests on standard input."""
    check_responses(run.responses, run_program(["run", "--db", "F"], run.input(), folder), run.end)


def check_through_socket(run, folder):
    """Checks a run over a file, with the requests on a connection to a server."""
    received, server = serve(folder, "F", 1, lambda connect, _: exchange(connect(), run))
    check_outcome("the end of the server", (0, "", ""), server)
    check_responses(run.responses, completed_process(0, received, b""), NORMAL_END)


def exchange(connection, run):
    """Sends each request after the response to the previous one has arrived, then shuts down the sending side. Returns all
    bytes that arrive."""
    received, expected_size = b"", 0
    responses = iter(run.responses)
    with connection:
        try:
            for request in run.requests:
                connection.sendall(request)
                expected_size += len(next(responses, ("", b""))[1])
                while len(received) < expected_size:
                    part = connection.recv(1 << 16)
                    if not part:
                        return received
                    received += part
            connection.shutdown(socket.SHUT_WR)
            while part := connection.recv(1 << 16):
                received += part
        except OSError:
            # (the server may close the connection while the client is still sending)
            pass
    return received


def execute_steps(run, folder):
    """Executes the steps of a run, which check or change its file. Raises CaseError at the first difference."""
    for location, keyword, argument, inner in run.steps:
        if keyword == "list":
            stdout = "".join(f"{line}\n" for line in inner)
            process = run_program(["list", "--db", "F", argument], folder=folder)
            check_outcome(f"{location}: list {argument}", (0, stdout, ""), process)
        elif keyword == "audit":
            process = run_program(["audit", "--db", "F"], folder=folder)
            check_outcome(f"{location}: audit", (AUDIT_STATUSES[argument], f"{argument}\n", ""), process)
        elif keyword == "rows":
            check_rows(location, folder, "F", argument, inner)
        else:
            execute_sql(folder, "F", argument)
