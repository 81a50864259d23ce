"""Which requests the relay accepts, and which it rejects."""
import asyncio
import gc
import os
import random
import time
import unittest

from relay import http1
from relay.faults import Refused, Unavailable


async def parse(text: bytes) -> http1.Request | None:
    reader = asyncio.StreamReader(limit=65536)
    reader.feed_data(text)
    reader.feed_eof()
    return await http1.read_request(reader)


class Requests(unittest.IsolatedAsyncioTestCase):
    async def test_a_request(self) -> None:
        text = b"PUT /config/s?x=1 HTTP/1.1\r\nhost: h\r\nRegistry-Retry-Key:  k \r\nCONTENT-LENGTH: 2\r\nCache-Control: a, No-Cache\r\n\r\n{}rest"
        self.assertEqual(await parse(text), http1.Request(b"PUT /config/s?x=1", (b"k",), b"{}", True, False))

    async def test_the_end_of_the_input(self) -> None:
        self.assertIsNone(await parse(b""))
        for text in (b"GET / HTT", b"GET / HTTP/1.1\r\n", b"GET / HTTP/1.1\r\nHost: h\r\nContent-Length: 3\r\n\r\nab"):
            with self.assertRaises(ConnectionError):
                await parse(text)

    async def test_last_requests(self) -> None:
        for head in (b"GET / HTTP/1.0\r\n\r\n", b"GET / HTTP/1.1\r\nHost: h\r\nConnection: x, Close\r\n\r\n"):
            found = await parse(head)
            self.assertTrue(found and found.is_last)
        found = await parse(b"GET / HTTP/1.1\r\nHost: h\r\nConnection: closed\r\n\r\n")
        self.assertFalse(found and found.is_last)

    async def refused(self, head: bytes, code: int) -> None:
        with self.assertRaises(Refused, msg=repr(head)) as found:
            await parse(head + b"Host: h\r\n\r\nGET /second HTTP/1.1\r\nHost: h\r\n\r\n")
        self.assertEqual(found.exception.code, code, head)

    async def test_what_could_be_read_in_two_ways(self) -> None:
        for head in (
            b"GET / HTTP/1.1\n",
            b"GET / HTTP/1.1\r\nA: b\n",
            b"\r\nGET / HTTP/1.1\r\n",
            b"GET /a b HTTP/1.1\r\n",
            b"GET  / HTTP/1.1\r\n",
            b"GET /\tHTTP/1.1\r\n",
            b"GET / HTTP/1.1 \r\n",
            b"GET / HTTP/2.0\r\n",
            b"GET /\r\n",
            b"G(T / HTTP/1.1\r\n",
            b"GET /\xff HTTP/1.1\r\n",
            b"GET /\x00 HTTP/1.1\r\n",
            b"GET / HTTP/1.1\r\nA : b\r\n",
            b"GET / HTTP/1.1\r\n A: b\r\n",
            b"GET / HTTP/1.1\r\nA: b\r\n c\r\n",
            b"GET / HTTP/1.1\r\nA: b\rc\r\n",
            b"GET / HTTP/1.1\r\nA: \x00\r\n",
            b"GET / HTTP/1.1\r\nno field\r\n",
            b"GET / HTTP/1.1\r\nContent-Length: 1\r\nContent-Length: 1\r\n",
            b"GET / HTTP/1.1\r\nContent-Length: 1, 1\r\n",
            b"GET / HTTP/1.1\r\nContent-Length: +1\r\n",
            b"GET / HTTP/1.1\r\nContent-Length: 0x1\r\n",
            b"GET / HTTP/1.1\r\nContent-Length: -1\r\n",
            b"GET / HTTP/1.1\r\nContent-Length:\r\n",
            b"GET / HTTP/1.1\r\nContent-Length: 00000000000000000001\r\n",
            b"GET / HTTP/1.1\r\nHost: other\r\n",
            b"GET / HTTP/1.1\r\nA: \x01\r\n",
        ):
            await self.refused(head, 40001)

    async def test_what_is_too_large_or_coded(self) -> None:
        await self.refused(b"GET / HTTP/1.1\r\nA: " + b"a" * 20000 + b"\r\n", 40001)
        await self.refused(b"GET / HTTP/1.1\r\n" + b"A: a\r\n" * 4000, 40001)
        await self.refused(b"GET / HTTP/1.1\r\nA: " + b"a" * 70000 + b"\r\n", 40001)
        await self.refused(b"PUT / HTTP/1.1\r\nContent-Length: 1048577\r\n", 413)
        for coding in (b"chunked", b"identity", b"", b"x\r\nContent-Length: 3"):
            await self.refused(b"PUT / HTTP/1.1\r\nTransfer-Encoding: " + coding + b"\r\n", 501)


# Parts of odd heads. HEADS is the number of heads that the test tries.
PARTS = (b"\t", b" ", b"a", b":", b",", b"\r", b"\n", b"\r\n", b"\r\n ", b"\x00", b"\x01", b"\x7f", b"\x80", b"\xff", b"0", b"=", b'"', b"/", b";", b"a: b\r\n",
         b"a:\r\n", b"Host: h\r\n", b"Content-Length: 0\r\n", b"Transfer-Encoding: chunked\r\n", b"Connection: close\r\n", b"x, ", b"HTTP/1.1")  # fmt: skip
STARTS = (b"GET / HTTP/1.1\r\nHost: h\r\n", b"PUT /config HTTP/1.1\r\nHost: h\r\nX:", b"GET / HTTP/1.1\r\nHost: h\r\nX: ", b"GET /", b"GET ", b"")
SECONDS = 0.005


def odd_head(pick: random.Random) -> bytes:
    """A head of a few parts. One of them may be repeated up to the limit of a head."""
    parts = [pick.choice(PARTS) * pick.choice((1, 1, 2, 5)) for _ in range(pick.randrange(4))]
    if pick.random() < 0.5:
        part = pick.choice(PARTS)
        parts.insert(pick.randrange(len(parts) + 1), part * (pick.randrange(1, http1.MAX_HEAD) // len(part)))
    return pick.choice(STARTS) + b"".join(parts) + b"\r\n\r\n"


class Times(unittest.IsolatedAsyncioTestCase):
    async def seconds(self, head: bytes) -> float:
        reader = asyncio.StreamReader(limit=65536)
        reader.feed_data(head)
        reader.feed_eof()
        began = time.thread_time()
        try:
            await http1.read_request(reader)
        except (Refused, ConnectionError):
            pass
        return time.thread_time() - began

    async def test_no_head_takes_long(self) -> None:
        """Each head takes less than 5 ms of the processor, whether the relay accepts it or not."""
        pick = random.Random(1)
        gc.disable()
        self.addCleanup(gc.enable)
        for _ in range(int(os.environ.get("HEADS", "3000"))):
            head = odd_head(pick)
            if await self.seconds(head) > SECONDS:  # a second try: the machine may have been slow
                self.assertLess(min([await self.seconds(head) for _ in range(5)]), SECONDS, (len(head), head[:80]))


class Responses(unittest.IsolatedAsyncioTestCase):
    async def read(self, text: bytes) -> tuple[http1.Response, bool]:
        reader = asyncio.StreamReader(limit=65536)
        reader.feed_data(text)
        reader.feed_eof()
        return await http1.read_response(reader)

    async def test_a_response_goes_on_as_it_came(self) -> None:
        fields = b"Content-Type: t\r\nContent-Length: 2\r\n"
        for end in (b"", b"Connection: close\r\n"):
            found, is_last = await self.read(b"HTTP/1.1 405 Method Not Allowed\r\n" + fields + end + b"\r\n{}")
            self.assertEqual((found, is_last), (http1.Response(405, fields, b"{}"), bool(end)))

    async def test_what_is_no_whole_response(self) -> None:
        for text in (b"", b"HTTP/1.1 200 OK\r\n", b"HTTP/1.1 200 OK\r\nContent-Length: 3\r\n\r\n{}", b"HTTP/1.1 200 OK\r\n\r\n"):
            with self.assertRaises(Unavailable):
                await self.read(text)

    def test_what_is_written(self) -> None:
        found = http1.write_response(http1.refusal(Refused(50301, "no")), b"k", True)
        self.assertEqual(
            found,
            b"HTTP/1.1 503 Service Unavailable\r\nContent-Type: application/vnd.schemaregistry.v1+json\r\nContent-Length: 35\r\n"
            b'Registry-Retry-Key: k\r\nConnection: close\r\n\r\n{"error_code":50301,"message":"no"}',
        )
