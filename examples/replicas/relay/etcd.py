"""etcd's JSON gateway: keys and values are in base64, numbers are strings, and members that are 0, false or empty are missing.

etcd listens on a Unix socket, so no web page and no other user of the machine can reach it.
"""
import asyncio
import base64
import contextlib
import json
import pathlib
from typing import Any, AsyncGenerator

import h11

from relay.faults import Unavailable

Json = dict[str, Any]

LINE_LIMIT = 16 * 1048576  # a watch response is one line, at most a fragment of 1.5 MB in base64
HEAD_LIMIT = 65536
PART = 262144
SOON = 1.5  # seconds: an election takes one or two
FAULTS = (OSError, ValueError, EOFError, h11.ProtocolError)


def encode(raw: bytes) -> str:
    return base64.b64encode(raw).decode()


def decode(text: str) -> bytes:
    return base64.b64decode(text)


def below(prefix: bytes) -> Json:
    """The range of all keys that begin with a prefix."""
    return {"key": encode(prefix), "range_end": encode(prefix[:-1] + bytes([prefix[-1] + 1]))}


def put(key: bytes, value: bytes = b"") -> Json:
    return {"key": encode(key), "value": encode(value)}


def is_missing(key: bytes) -> Json:
    """The condition of a transaction that a key has no value."""
    return {"key": encode(key), "target": "VERSION", "result": "EQUAL", "version": "0"}


def is_unchanged(key: bytes, revision: int) -> Json:
    """The condition that a key was last changed in this revision. 0 means that it has no value."""
    return {"key": encode(key), "target": "MOD", "result": "EQUAL", "mod_revision": str(revision)}


class Connection:
    """One connection to etcd. It sends a request after the response to the one before."""

    def __init__(self, reader: asyncio.StreamReader, writer: asyncio.StreamWriter) -> None:
        self.reader, self.writer = reader, writer
        self.parser = h11.Connection(h11.CLIENT, max_incomplete_event_size=HEAD_LIMIT)

    @classmethod
    async def open(cls, path: pathlib.Path) -> "Connection":
        return cls(*await asyncio.open_unix_connection(path))

    def close(self) -> None:
        self.writer.close()

    async def send(self, path: str, document: Json) -> int:
        """Sends a request. Returns the status of the response. Read its body next."""
        body = json.dumps(document).encode()
        fields = [("Host", "etcd"), ("Content-Type", "application/json"), ("Content-Length", str(len(body)))]
        request = (h11.Request(method="POST", target=path, headers=fields), h11.Data(data=body), h11.EndOfMessage())
        self.writer.write(b"".join(self.parser.send(it) or b"" for it in request))
        await self.writer.drain()
        found = await self.next_event()
        if not isinstance(found, h11.Response):
            raise ValueError("no response of HTTP/1.1")
        if not {name for name, _ in found.headers} & {b"content-length", b"transfer-encoding"}:
            raise ValueError("a body without a length")
        return found.status_code

    async def next_event(self) -> object:
        while (found := self.parser.next_event()) is h11.NEED_DATA:
            self.parser.receive_data(await self.reader.read(PART))
        return found

    async def parts(self) -> AsyncGenerator[bytes, None]:
        """The parts of a body as they arrive."""
        while isinstance(found := await self.next_event(), h11.Data):
            yield bytes(found.data)

    async def body(self) -> bytes:
        """The whole body."""
        found = b"".join([part async for part in self.parts()])
        self.parser.start_next_cycle()
        return found


class Etcd:
    """One member of etcd, by the path of its socket. A node asks its own member, so a node without a majority can't append."""

    def __init__(self, path: pathlib.Path) -> None:
        self.path = path
        self.idle: list[Connection] = []

    async def call(self, path: str, document: Json, seconds: float = 4.0) -> Json:
        """The response to a request. After `Unavailable` the caller may repeat the request, which may then be applied twice."""
        connection: Connection | None = None
        try:
            async with asyncio.timeout(seconds):
                connection = self.idle.pop() if self.idle else await Connection.open(self.path)
                status = await connection.send(path, document)
                found = json.loads(await connection.body())
        except BaseException as fault:
            if connection:
                connection.close()
            if not isinstance(fault, FAULTS):
                raise
            self.close()
            raise Unavailable(f"etcd: {fault!r}") from fault
        self.idle.append(connection)
        if status != 200:
            raise Unavailable(f"etcd: {found.get('message', status)}")
        return dict(found)

    async def lines(self, path: str, document: Json) -> AsyncGenerator[bytes, None]:
        """The lines of an endless response."""
        try:
            async with asyncio.timeout(4.0):
                connection = await Connection.open(self.path)
        except FAULTS as fault:
            raise Unavailable(f"etcd: {fault!r}") from fault
        rest = b""
        try:
            async with asyncio.timeout(4.0):
                await connection.send(path, document)
            async with contextlib.aclosing(connection.parts()) as parts:
                async for part in parts:
                    *whole, rest = (rest + part).split(b"\n")
                    for line in whole:
                        yield line
                    if len(rest) > LINE_LIMIT:
                        raise ValueError("a line without an end")
        except FAULTS as fault:
            raise Unavailable(f"etcd: {fault!r}") from fault
        finally:
            connection.close()

    async def pairs(self, document: Json, seconds: float = 4.0) -> list[Json]:
        return list((await self.call("/v3/kv/range", document, seconds)).get("kvs", []))

    def close(self) -> None:
        """Closes the idle connections."""
        for connection in self.idle:
            connection.close()
        self.idle.clear()
