"""The listener for clients: which requests of a connection are answered, and how a connection ends."""
import asyncio
import dataclasses
import pathlib
import re
import unittest

from relay import config
from relay.config import Address
from relay.faults import Refused, Unavailable
from relay.http1 import Request, Response
from relay.metrics import Metrics
from relay.replica import Replica
from relay.server import Server
from tests import eventually

RELAY_TOML = pathlib.Path(__file__).parent.parent / "relay.toml"


class StandIn(Replica):
    """Answers each request with its line, and keeps the lines. A request for /wait waits for `go_on`."""

    def __init__(self, settings: config.Config) -> None:
        self.config, self.metrics = settings, Metrics()
        self.lines: list[bytes] = []
        self.left = 0
        self.go_on = asyncio.Event()

    def leave_to_others(self) -> None:
        self.left += 1

    async def answer(self, request: Request) -> tuple[bytes, Response]:
        self.lines.append(request.line)
        if request.line in (b"GET /wait", b"PUT /wait"):
            await self.go_on.wait()
        if request.line == b"GET /refused":
            raise Refused(40001, "Malformed request")
        if request.line == b"GET /away":
            raise Unavailable("10.0.0.1 is away")
        body = b"<%s>" % request.line
        return b"", Response(200, b"Content-Length: %d\r\n" % len(body), body)


class Serving(unittest.IsolatedAsyncioTestCase):
    async def asyncSetUp(self) -> None:
        anywhere = Address("127.0.0.1", 0)
        settings = dataclasses.replace(config.load(RELAY_TOML), listen=anywhere, admin=anywhere, max_connections=3, max_bytes=10000)
        self.replica = StandIn(settings)
        self.server = Server(self.replica)
        await self.server.start()
        self.address = self.server.listeners[0].sockets[0].getsockname()

    async def asyncTearDown(self) -> None:
        await self.server.close()

    async def responses(self, text: bytes) -> bytes:
        """All bytes until the server closes the connection. The client's side stays open."""
        reader, writer = await asyncio.open_connection(*self.address)
        writer.write(text)
        found = await asyncio.wait_for(reader.read(), 30)
        writer.close()
        return found

    async def statuses(self, text: bytes) -> list[int]:
        return [int(it) for it in re.findall(rb"HTTP/1\.1 ([0-9]{3}) ", await self.responses(text))]

    async def test_requests_of_a_connection_are_answered_in_order(self) -> None:
        text = b"PUT /1 HTTP/1.1\r\nHost: h\r\nContent-Length: 3\r\n\r\nabcGET /2 HTTP/1.1\r\nHost: h\r\nConnection: close\r\n\r\nGET /3 HTTP/1.1\r\nHost: h\r\n\r\n"
        found = await self.responses(text)
        self.assertEqual(re.findall(b"<.*?>", found), [b"<PUT /1>", b"<GET /2>"])
        self.assertEqual(self.replica.lines, [b"PUT /1", b"GET /2"])

    async def test_nothing_is_read_after_a_request_that_could_be_read_in_two_ways(self) -> None:
        hidden = b"PUT /config HTTP/1.1\r\nHost: h\r\nContent-Length: 0\r\n\r\n"
        for fields in (b"Content-Length: %d\r\nTransfer-Encoding: chunked", b"Content-Length: 0\r\nContent-Length: %d", b"Content-Length : %d",
                       b"Transfer-Encoding: chunked\r\nX: %d", b"A: b\n\r\nX: %d", b" Content-Length: %d", b"Content-Length: %d, 0"):  # fmt: skip
            head = b"POST /subjects/s/versions HTTP/1.1\r\nHost: h\r\n" + fields % len(hidden) + b"\r\n\r\n"
            found = await self.statuses(head + hidden + hidden)
            self.assertIn(found, ([400], [501]), head)
        self.assertEqual(self.replica.lines, [])

    async def test_a_refusal_of_a_whole_request_keeps_the_connection(self) -> None:
        found = await self.statuses(b"GET /refused HTTP/1.1\r\nHost: h\r\n\r\nGET /away HTTP/1.1\r\nHost: h\r\n\r\nGET / HTTP/1.0\r\n\r\n")
        self.assertEqual(found, [400, 503, 200])

    async def test_the_response_to_head_has_no_body(self) -> None:
        found = await self.responses(b"HEAD /1 HTTP/1.1\r\nHost: h\r\n\r\nGET /2 HTTP/1.0\r\n\r\n")
        self.assertEqual(re.findall(b"<.*?>", found), [b"<GET /2>"])

    async def test_too_many_connections(self) -> None:
        waiting = [asyncio.create_task(self.statuses(b"GET /wait HTTP/1.0\r\n\r\n")) for _ in range(3)]
        await eventually(lambda: len(self.replica.lines) == 3)
        self.assertEqual(await self.statuses(b""), [503])
        self.replica.go_on.set()
        self.assertEqual(await asyncio.gather(*waiting), [[200]] * 3)

    async def test_a_refusal_says_nothing_of_the_inside(self) -> None:
        self.assertNotIn(b"10.0.0.1", await self.responses(b"GET /away HTTP/1.0\r\n\r\n"))

    async def test_the_budget_of_bytes(self) -> None:
        """Bodies beyond the budget get 503 with Retry-After. After a response, its bytes are free again."""
        def put(size: int) -> bytes:
            return b"PUT /wait HTTP/1.0\r\nContent-Length: %d\r\n\r\n" % size + bytes(size)

        waiting = asyncio.create_task(self.responses(put(4000)))
        await eventually(lambda: len(self.replica.lines) == 1)
        found = await self.responses(put(1001))
        self.assertTrue(found.startswith(b"HTTP/1.1 503 ") and b"\r\nRetry-After: 1\r\n" in found, found)
        self.assertEqual((self.replica.left, self.server.budget.free), (1, 2000))
        self.replica.go_on.set()
        self.assertIn(b" 200 ", await waiting)
        await eventually(lambda: self.server.budget.free == 10000)
        self.assertIn(b" 200 ", await self.responses(put(5000)))

    async def test_a_client_that_never_sends_its_body(self) -> None:
        self.server.config = dataclasses.replace(self.server.config, idle_seconds=0.2)
        self.assertEqual(await self.responses(b"PUT /1 HTTP/1.1\r\nHost: h\r\nContent-Length: 4000\r\n\r\nx"), b"")
        await eventually(lambda: self.server.budget.free == 10000)

    async def test_it_answers_what_it_has_before_it_ends(self) -> None:
        waiting = asyncio.create_task(self.statuses(b"GET /wait HTTP/1.1\r\nHost: h\r\n\r\nGET /2 HTTP/1.1\r\nHost: h\r\n\r\n"))
        idle = asyncio.create_task(self.responses(b""))
        await eventually(lambda: len(self.replica.lines) == 1 and len(self.server.tasks) == 2)
        closing = asyncio.create_task(self.server.close())
        self.assertEqual(await idle, b"")
        self.replica.go_on.set()
        await closing
        self.assertEqual((await waiting)[:1], [200])
