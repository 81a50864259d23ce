"""Runs the program under test, and compares its outcomes with the expected ones."""

import difflib
import itertools
import os
import pprint
import shlex
import socket
import subprocess
import tempfile
import time

TESTS = os.path.dirname(os.path.dirname(os.path.abspath(__file__)))
PROGRAM = os.path.abspath(os.environ.get("AVROREG", f"{TESTS}/../crates/avroreg/out/avroreg"))
# The time limit of one run. A program compiled without proofs isn't optimized as much, so tests/run sets a higher limit.
TIMEOUT_SECONDS = int(os.environ.get("SECONDS", 60))


class CaseError(Exception):
    """A case can't be parsed, or its outcome differs from the expected one."""


def raise_difference(context, expected, actual):
    """Raises CaseError with the context, which says what differs, and a diff of both outcomes."""
    raise CaseError(f"{context}\n{format_diff(expected, actual)}")


def format_diff(expected, actual):
    """Returns a diff of two outcomes. Shows carriage returns only if the outcomes differ in nothing else."""
    texts = [format_outcome(expected), format_outcome(actual)]
    unix_texts = [text.replace("\r\n", "\n") for text in texts]
    texts = [text.replace("\r", "\\r") for text in texts] if unix_texts[0] == unix_texts[1] else unix_texts
    lines = difflib.unified_diff(*(text.split("\n") for text in texts), "expected", "actual", n=8, lineterm="")
    return "\n".join(f"    {shorten(line)}" for line in lines)


def format_outcome(outcome):
    """Returns an outcome as text. It is a str, bytes, None for a missing file, a list of rows, (status, stdout, stderr), or
    any other value."""
    match outcome:
        case str():
            return outcome
        case bytes():
            return outcome.decode(errors="backslashreplace")
        case None:
            return "(no file)"
        case (int(status), str(stdout), str(stderr)):
            return f"status {status}\nstandard output:\n{stdout}\nstandard error:\n{stderr}"
        case [*rows] if all(isinstance(row, str) for row in rows):
            return "\n".join(rows)
    return pprint.pformat(outcome, width=160)


def describe_request(location, request):
    """Returns the location with the request sent there below it, or the location alone if the request is empty."""
    lines = request.decode(errors="backslashreplace").replace("\r\n", "\n").rstrip("\n").split("\n") if request else []
    return "\n".join([location, *["  request:"] * bool(lines), *(f"    > {shorten(line)}" for line in lines)])


def shorten(text):
    """Returns the text, without its middle if it has more than 2,000 characters."""
    return text if len(text) <= 2000 else f"{text[:1000]} .. {len(text)} characters .. {text[-500:]}"


def temporary_folder():
    """Returns a context manager that creates and removes a folder for a case's files, in memory if /dev/shm is writable."""
    shm = "/dev/shm"
    return tempfile.TemporaryDirectory(prefix="avroreg-", dir=shm if os.access(shm, os.W_OK) else None)


def write_file(folder, name, content):
    """Writes bytes to a file, or a str as UTF-8."""
    with open(os.path.join(folder, name), "wb") as file:
        file.write(content if isinstance(content, bytes) else content.encode())


def read_file(folder, name):
    """Returns the bytes of a file, or None if there is no such file."""
    try:
        with open(os.path.join(folder, name), "rb") as file:
            return file.read()
    except FileNotFoundError:
        return None


def run_program(arguments, stdin=b"", folder=None, full_stdout=False, unreadable_stdin=False, program=PROGRAM, env=None):
    """Runs the program to its end, and returns a CompletedProcess.

    arguments         the command-line arguments
    stdin             the bytes on standard input
    folder            the working directory
    full_stdout       whether standard output is /dev/full, where each write fails
    unreadable_stdin  whether standard input is the working directory, where each read fails
    program           the path of the program
    env               variables to add to the environment

    Raises CaseError if the run takes more than TIMEOUT_SECONDS.
    """
    options, descriptors = {"input": stdin}, []
    try:
        if unreadable_stdin:
            descriptors.append(os.open(folder, os.O_RDONLY))
            options = {"stdin": descriptors[-1]}
        if full_stdout:
            descriptors.append(os.open("/dev/full", os.O_WRONLY))
        stdout = descriptors[-1] if full_stdout else subprocess.PIPE
        options["env"] = {**os.environ, **(env or {})}
        process = subprocess.run(
            [program, *arguments], stdout=stdout, stderr=subprocess.PIPE, cwd=folder, timeout=TIMEOUT_SECONDS, **options
        )
        return completed_process(process.returncode, process.stdout or b"", process.stderr)
    except subprocess.TimeoutExpired:
        command = f"{os.path.basename(program)} {shlex.join(arguments)}"
        raise CaseError(f"{command} took more than {TIMEOUT_SECONDS} seconds") from None
    finally:
        for descriptor in descriptors:
            os.close(descriptor)


def completed_process(status, stdout, stderr):
    """Returns a CompletedProcess with this status and output."""
    return subprocess.CompletedProcess((), status, stdout, stderr)


def start_program(arguments, folder):
    """Starts the program with pipes for standard input, output and error, and returns it without waiting for its end."""
    pipes = {"stdin": subprocess.PIPE, "stdout": subprocess.PIPE, "stderr": subprocess.PIPE}
    return subprocess.Popen([PROGRAM, *arguments], cwd=folder, **pipes)


def check_outcome(context, expected, process):
    """Compares a CompletedProcess with the expected (status, stdout, stderr). Raises CaseError if they differ."""
    stdout, stderr = (output.decode(errors="backslashreplace") for output in (process.stdout, process.stderr))
    actual = (process.returncode, stdout, stderr)
    if actual != expected:
        raise_difference(context, expected, actual)


def serve(folder, name, connections, client):
    """Runs a server over a file until it ends, and returns the result of `client` and the server's CompletedProcess.

    connections  the number of connections after which the server ends
    client       called as client(connect, server); connect() returns a new connection, server is the running process

    If another program takes the server's port first, tries again with another port. Raises CaseError after five attempts.
    """
    for _ in range(5):
        port = find_free_port()
        server = start_program(["serve", "--db", name, "--port", str(port), "--connections", str(connections)], folder)
        try:
            result = client(lambda: connect(server, port), server)
            stdout, stderr = server.communicate(timeout=TIMEOUT_SECONDS)
            return result, completed_process(server.returncode, stdout, stderr)
        except PortTaken:
            pass
        finally:
            server.kill()
            server.communicate()
    raise CaseError("the server found no free port")


class PortTaken(Exception):
    """Another program took the port before the server listened on it."""


# Ports below the range from which Linux assigns local ports to connections (by default 32768 and above). The process id
# chooses the first port, so that runs at the same time begin with different ports.
PORTS = itertools.islice(itertools.cycle(range(20000, 32000)), os.getpid() % 12000, None)


def find_free_port():
    """Returns a port on which no program listens, from PORTS.

    A client may try to connect before the server listens. If the port were in the kernel's range, the kernel could assign it
    to the client, which would then connect to itself.
    """
    for port in PORTS:
        with socket.socket() as candidate:
            try:
                candidate.bind(("127.0.0.1", port))
            except OSError:
                continue
            return port


def connect(server, port):
    """Returns a new connection to the server, and retries until the server listens.

    Raises PortTaken if the server can't listen on the port. Raises CaseError if the server ends for another reason or
    doesn't listen in time.
    """
    for _ in range(TIMEOUT_SECONDS * 200):
        try:
            return socket.create_connection(("127.0.0.1", port), timeout=TIMEOUT_SECONDS)
        except OSError:
            if server.poll() is not None:
                if b"cannot listen" in server.stderr.read():
                    raise PortTaken from None
                raise CaseError(f"the server ended with status {server.returncode} before it accepted a connection") from None
            time.sleep(0.005)
    raise CaseError("the server doesn't accept connections")
