"""HTTP/1.1 as the relay reads and writes it. h11 parses the requests. The relay also rejects heads that two parsers could read
differently."""
import asyncio
import http
import json
import re
from typing import Callable, NamedTuple

import h11

from relay.faults import Refused, Unavailable

MAX_HEAD = 16384 - 256  # avroreg accepts heads of 16384 bytes; the relay's own fields are shorter than 256
MAX_LINES = 256  # h11 takes a few microseconds for each
MAX_BODY = 1048576  # avroreg's own limit
JSON_TYPE = b"application/vnd.schemaregistry.v1+json"
BUSY = 50305

# What h11 accepts and another parser may read otherwise: lines that don't end with CR LF, folded lines, control characters,
# several lengths.
CLEAR_HEAD = re.compile(rb"(?:[!-~\x80-\xff][\t -~\x80-\xff]*+\r\n)++\r\n")
LENGTH_LINE = re.compile(rb"\r\nContent-Length:([^\r]*+)", re.IGNORECASE)
LENGTH = re.compile(rb"[ \t]*+([0-9]{1,19})[ \t]*+")


class Request(NamedTuple):
    line: bytes  # the method and the target, unchanged
    keys: tuple[bytes, ...]
    body: bytes
    is_fresh: bool  # Cache-Control: no-cache
    is_last: bool  # the connection ends after the response
    may_be_stale: bool = False  # Cache-Control: max-stale


class Response(NamedTuple):
    status: int
    fields: bytes  # without the status line and Connection, each line with its end
    body: bytes

    def found_nothing(self) -> bool:
        """Whether the registry lacks what a read asks for. The other 404 is for a path that doesn't exist."""
        return self.status == 404 and not self.body.startswith(b'{"error_code":404,')


def values(head: h11.Request, name: bytes) -> tuple[bytes, ...]:
    """The values of the fields with this name, in order."""
    return tuple(value for found, value in head.headers if found == name)


def has_token(head: h11.Request, name: bytes, token: bytes) -> bool:
    words = b",".join(values(head, name)).lower().split(b",")
    return any(word.strip() == token for word in words)


async def read_head(reader: asyncio.StreamReader) -> bytes:
    """The bytes of a head. Empty at the end of the input."""
    try:
        return await reader.readuntil(b"\r\n\r\n")
    except asyncio.LimitOverrunError as fault:
        raise Refused(40001, "Malformed request") from fault
    except asyncio.IncompleteReadError as fault:
        if fault.partial:
            raise ConnectionError("the input ended inside a head") from fault
        return b""


def parse_head(text: bytes) -> h11.Request:
    """The method, the target and the fields of a head."""
    if len(text) > MAX_HEAD or text.count(b"\n") > MAX_LINES or not CLEAR_HEAD.fullmatch(text):
        raise Refused(40001, "Malformed request")
    parser = h11.Connection(h11.SERVER, max_incomplete_event_size=MAX_HEAD)
    parser.receive_data(text)
    try:
        head = parser.next_event()
    except h11.RemoteProtocolError as fault:
        if fault.error_status_hint == 501:
            raise Refused(501, "Transfer coding not supported") from fault
        raise Refused(40001, "Malformed request") from fault
    if not isinstance(head, h11.Request) or head.http_version not in (b"1.0", b"1.1"):
        raise Refused(40001, "Malformed request")
    return head


def body_length(text: bytes, head: h11.Request) -> int:
    if values(head, b"transfer-encoding"):
        raise Refused(501, "Transfer coding not supported")
    lines = LENGTH_LINE.findall(text) or [b"0"]  # h11 merges equal lengths
    length = LENGTH.fullmatch(lines[0])
    if len(lines) > 1 or not length:
        raise Refused(40001, "Malformed request")
    if int(length[1]) > MAX_BODY:
        raise Refused(413, "Body too large")
    return int(length[1])


async def read_request(reader: asyncio.StreamReader, before_body: Callable[[int], object] = lambda length: None) -> Request | None:
    """The next request of a connection, or None if the connection ended. `before_body` gets the length of the body first."""
    text = await read_head(reader)
    if not text:
        return None
    head = parse_head(text)
    length = body_length(text, head)
    before_body(length)
    try:
        body = await reader.readexactly(length)
    except asyncio.IncompleteReadError as fault:
        raise ConnectionError("the input ended inside a body") from fault
    return Request(
        line=head.method + b" " + head.target,
        keys=values(head, b"registry-retry-key"),
        body=body,
        is_fresh=has_token(head, b"cache-control", b"no-cache"),
        is_last=head.http_version == b"1.0" or has_token(head, b"connection", b"close"),
        may_be_stale=has_token(head, b"cache-control", b"max-stale"),
    )


def json_response(status: int, document: object, kind: bytes = JSON_TYPE) -> Response:
    body = json.dumps(document, separators=(",", ":")).encode()
    return Response(status, b"Content-Type: %s\r\nContent-Length: %d\r\n" % (kind, len(body)), body)


def refusal(fault: Refused) -> Response:
    """The response to a rejected request, in the form of avroreg's errors."""
    response = json_response(int(str(fault.code)[:3]), {"error_code": fault.code, "message": fault.message})
    return response._replace(fields=response.fields + b"Retry-After: 1\r\n") if fault.code == BUSY else response


def write_response(response: Response, key: bytes, is_last: bool) -> bytes:
    phrase = http.HTTPStatus(response.status).phrase.encode()
    more = b"Registry-Retry-Key: %s\r\n" % key if key else b""
    more += b"Connection: close\r\n" if is_last else b""
    return b"HTTP/1.1 %d %s\r\n%s%s\r\n%s" % (response.status, phrase, response.fields, more, response.body)


async def read_response(reader: asyncio.StreamReader) -> tuple[Response, bool]:
    """A response of avroreg, and whether the connection ends after it."""
    try:
        head = await reader.readuntil(b"\r\n\r\n")
        line, _, fields = head[:-2].partition(b"\r\n")
        is_last = fields.endswith(b"\r\nConnection: close\r\n")
        fields = fields.removesuffix(b"Connection: close\r\n")
        found = re.fullmatch(rb"HTTP/1\.1 ([0-9]{3}) [ -~]*", line)
        length = re.search(rb"(?:\A|\n)Content-Length: ([0-9]+)\r\n", fields)
        if not found or not length:
            raise Unavailable("avroreg: no response of HTTP/1.1")
        return Response(int(found[1]), fields, await reader.readexactly(int(length[1]))), is_last
    except (asyncio.IncompleteReadError, asyncio.LimitOverrunError) as fault:
        raise Unavailable("avroreg: the connection ended inside a response") from fault
