"""Sends requests in pieces, and receives responses."""

import os
import re
import socket
import subprocess
import threading

from .program import PROGRAM, TIMEOUT_SECONDS, CaseError, completed_process

PIECE_LENGTHS = range(1, 65)


def repeat_in_pieces(message):
    """Repeats a message for each length of PIECE_LENGTHS, split into pieces of that length. Returns all pieces as a list."""
    return [message[start : start + length] for length in PIECE_LENGTHS for start in range(0, len(message), length)]


def run_in_pieces(arguments, pieces, folder):
    """Runs the program so that each read of standard input returns one piece. Returns a CompletedProcess.

    Standard input is a pipe in packet mode (pipe(7), O_DIRECT). Raises CaseError if the run takes too long.
    """
    read_end, write_end = os.pipe2(os.O_DIRECT | os.O_CLOEXEC)
    try:
        process = subprocess.Popen(
            [PROGRAM, *arguments], cwd=folder, stdin=read_end, stdout=subprocess.PIPE, stderr=subprocess.PIPE
        )
    finally:
        os.close(read_end)
    threading.Thread(target=write_pieces, args=(write_end, pieces), daemon=True).start()
    try:
        stdout, stderr = process.communicate(timeout=TIMEOUT_SECONDS)
    except subprocess.TimeoutExpired:
        raise CaseError(f"a run with {len(pieces)} pieces of input took more than {TIMEOUT_SECONDS} seconds") from None
    finally:
        process.kill()
        process.communicate()
    return completed_process(process.returncode, stdout, stderr)


def write_pieces(descriptor, pieces):
    """Writes each piece to the descriptor until the reader ends, and closes it."""
    try:
        for piece in pieces:
            os.write(descriptor, piece)
    except BrokenPipeError:
        pass
    finally:
        os.close(descriptor)


def receive_all(connection):
    """Returns all bytes that arrive before the server closes the connection."""
    received = b""
    while part := connection.recv(1 << 20):
        received += part
    return received


def response_length(received):
    """Returns the length of the response at the front of the bytes, or None if its head isn't whole."""
    head, end, _ = received.partition(b"\r\n\r\n")
    length = re.search(rb"\r\nContent-Length: (\d+)", head)
    return len(head + end) + int(length[1]) if end and length else None


def receive_response(connection):
    """Returns the bytes of the next response, or what arrives of it before the server closes the connection."""
    received = b""
    while (length := response_length(received)) is None or len(received) < length:
        part = connection.recv(1 << 16)
        if not part:
            break
        received += part
    return received


def send_request(connection, request):
    """Sends a request, shuts down the sending side, and returns all bytes of the response."""
    with connection:
        connection.sendall(request)
        connection.shutdown(socket.SHUT_WR)
        return receive_all(connection)


def send_in_pieces(connection, pieces):
    """Sends each piece as a packet of its own, and returns all bytes of the responses."""
    with connection:
        connection.setsockopt(socket.IPPROTO_TCP, socket.TCP_NODELAY, 1)
        for piece in pieces:
            connection.sendall(piece)
        connection.shutdown(socket.SHUT_WR)
        return receive_all(connection)
