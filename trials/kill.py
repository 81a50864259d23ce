#!/usr/bin/env python3
"""Kills `avroreg run --db F` at random moments, and checks that each acknowledged write is kept.

    python3 trials/kill.py PROGRAM [ROUNDS]     PROGRAM as `rt run` builds it: crates/avroreg/out/avroreg

Each round sends writes of the global level with new retry keys. It reads a random number of responses, and kills the
program with SIGKILL. Then it sends each acknowledged key twice: with another command, which must get 42290, and with its
own command, which must get its first response, byte for byte. The level must be that of the last acknowledged write, or
of the write in progress after it. Every tenth round begins a new file.
"""
import contextlib
import os
import random
import re
import signal
import sqlite3
import subprocess
import sys
import tempfile

LEVELS = ["NONE", "BACKWARD", "FORWARD", "FULL", "BACKWARD_TRANSITIVE", "FORWARD_TRANSITIVE", "FULL_TRANSITIVE"]
LENGTH = re.compile(rb"Content-Length: (\d+)\r\n")


def write_request(key, level):
    body = '{"compatibility":"%s"}' % level
    return f"PUT /config HTTP/1.1\r\nRegistry-Retry-Key: {key}\r\nContent-Length: {len(body)}\r\n\r\n{body}".encode()


def complete_responses(data):
    """The complete responses at the front of the bytes, each with head and body."""
    responses = []
    while (end := data.find(b"\r\n\r\n")) >= 0:
        end += 4 + int(LENGTH.search(data[:end + 2]).group(1))
        if end > len(data):
            break
        responses.append(data[:end])
        data = data[end:]
    return responses


def run(program, file, requests, kill_after=None):
    """Runs the program, and returns its responses. It kills the program after `kill_after` responses, if that isn't None."""
    process = subprocess.Popen([program, "run", "--db", file], stdin=subprocess.PIPE, stdout=subprocess.PIPE)
    process.stdin.write(b"".join(requests))
    process.stdin.close()
    data = b""
    while kill_after is None or len(complete_responses(data)) < kill_after:
        read = os.read(process.stdout.fileno(), 65536)
        if not read:
            break
        data += read
    if kill_after is not None:
        process.send_signal(signal.SIGKILL)
    data += process.stdout.read()
    process.wait()
    return complete_responses(data)


class Registry:
    """The required contents of a file: each key's level and first response, the possible global levels, the write in progress."""

    def __init__(self, file):
        self.file, self.first, self.levels, self.in_progress = file, {}, {"BACKWARD"}, None


def check(program, registry):
    """Retries each acknowledged write, and compares the rows."""
    requests = [b"GET /config HTTP/1.1\r\n\r\n"]
    for key, (level, _) in registry.first.items():
        requests.append(write_request(key, random.choice([other for other in LEVELS if other != level])))
        requests.append(write_request(key, level))
    global_level, *responses = run(program, registry.file, requests)
    assert len(responses) == 2 * len(registry.first)
    found = re.search(rb'"compatibilityLevel":"(\w+)"', global_level).group(1).decode()
    assert found in registry.levels, (found, registry.levels)
    for other, own, (key, (_, first)) in zip(responses[::2], responses[1::2], registry.first.items()):
        assert b'"error_code":42290' in other, (key, other)
        assert own == first, (key, own, first)
    with contextlib.closing(sqlite3.connect(registry.file)) as database:
        rows = [key for (key,) in database.execute("SELECT key FROM kept")]
    lost, more = set(registry.first) - set(rows), set(rows) - set(registry.first)
    assert not lost and len(rows) == len(set(rows)) and more <= {registry.in_progress and registry.in_progress[0]}, (lost, more)


def run_round(program, registry, number):
    """Sends the write in progress again and new writes, and kills the program after a random response."""
    writes = [registry.in_progress] if registry.in_progress else []
    writes += [(f"key-{number}-{at}", random.choice(LEVELS)) for at in range(25)]
    responses = run(program, registry.file, [write_request(*write) for write in writes], random.randrange(len(writes) + 1))
    for (key, level), response in zip(writes, responses):
        registry.first[key] = (level, response)
        registry.levels = {level}
    registry.in_progress = writes[len(responses)] if len(responses) < len(writes) else None
    if registry.in_progress:
        registry.levels = registry.levels | {registry.in_progress[1]}


def main():
    program, rounds = sys.argv[1], int(sys.argv[2]) if len(sys.argv) > 2 else 200
    with tempfile.TemporaryDirectory() as folder:
        for number in range(rounds):
            if number % 10 == 0:
                registry = Registry(f"{folder}/{number}.db")
            run_round(program, registry, number)
            check(program, registry)
    print(f"{rounds} kills, nothing lost")


if __name__ == "__main__":
    main()
