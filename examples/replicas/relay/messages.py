"""The messages to avroreg: which requests are writes, and their form in the log.

A message has a request line, three fields that the relay writes itself, and the body. It has nothing else of a client's
head. So every parser of HTTP reads it as one request, and a batch as several requests in a row.
"""
import re
from typing import Iterator

KEY = re.compile(rb"[A-Za-z0-9._-]{1,64}")

# avroreg rejects every write with this key (40001), and ignores the key of a read. The relay sends it with each request that
# it doesn't append. So avroreg rejects a request that is a write for avroreg but not for the relay.
NO_KEY = b"?"

WRITE = re.compile(
    rb"(PUT /(config|mode)(/[^/?]+)?"
    rb"|POST /subjects/[^/?]+/versions"
    rb"|DELETE /subjects/[^/?]+(/versions/[^/?]+)?)(\?.*)?"
)

HEAD = re.compile(
    rb"[^ \r\n]+ [^ \r\n]+ HTTP/1\.1\r\nHost: registry\r\nRegistry-Retry-Key: ([^\r\n]+)\r\nContent-Length: ([0-9]{1,7})\r\n\r\n"
)


def is_write(line: bytes) -> bool:
    """Whether the method and the target are those of a write."""
    return WRITE.fullmatch(line) is not None


def message(line: bytes, key: bytes, body: bytes) -> bytes:
    """The message for a method and a target, as the client sent them."""
    head = b"%s HTTP/1.1\r\nHost: registry\r\nRegistry-Retry-Key: %s\r\n" % (line, key)
    return head + b"Content-Length: %d\r\n\r\n" % len(body) + body


def key_of(text: bytes) -> bytes:
    """The retry key of a message."""
    found = HEAD.match(text)
    if not found:
        raise ValueError("no message")
    return found[1]


def line_of(text: bytes) -> bytes:
    """The method and the target of a message."""
    return text.partition(b" HTTP/1.1\r\n")[0]


def body_of(text: bytes) -> bytes:
    return text.partition(b"\r\n\r\n")[2]


def split(batch: bytes) -> Iterator[bytes]:
    """The messages of a batch, in order."""
    start = 0
    while start < len(batch):
        found = HEAD.match(batch, start)
        end = found.end() + int(found[2]) if found else len(batch) + 1
        if end > len(batch):
            raise ValueError(f"no message at byte {start} of an entry")
        yield batch[start:end]
        start = end
