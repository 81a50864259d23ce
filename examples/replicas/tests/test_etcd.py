"""The client of etcd's JSON gateway: bodies by length and in chunks, errors, kept connections."""
import asyncio
import json
import pathlib
import tempfile
import unittest
from typing import Any

from relay.etcd import Etcd
from relay.faults import Unavailable

OK = b"HTTP/1.1 200 OK\r\n"
LENGTH = OK + b'Content-Length: 7\r\n\r\n{"a":1}'
CHUNKS = OK + b'Transfer-Encoding: chunked\r\n\r\n3\r\n{"a\r\n4\r\n":2}\r\n0\r\n\r\n'
ERROR = (
    b"HTTP/1.1 503 Service Unavailable\r\nTransfer-Encoding: chunked\r\nTrailer: Grpc-Trailer-Content-Type\r\n\r\n"
    b'16\r\n{"message":"no space"}\r\n0\r\nGrpc-Trailer-Content-Type: application/grpc\r\n\r\n'
)


class Calls(unittest.IsolatedAsyncioTestCase):
    async def asyncSetUp(self) -> None:
        self.responses: list[bytes] = []
        self.requests: list[Any] = []
        self.connections = 0
        folder = tempfile.TemporaryDirectory()
        self.addCleanup(folder.cleanup)
        path = pathlib.Path(folder.name) / "client:0"
        self.server = await asyncio.start_unix_server(self.serve, path)
        self.etcd = Etcd(path)

    async def asyncTearDown(self) -> None:
        self.etcd.close()
        self.server.close()

    async def serve(self, reader: asyncio.StreamReader, writer: asyncio.StreamWriter) -> None:
        self.connections += 1
        try:
            while True:
                head = await reader.readuntil(b"\r\n\r\n")
                length = int(head.lower().partition(b"content-length: ")[2].partition(b"\r\n")[0])
                self.requests.append((head.split(b" ")[1], json.loads(await reader.readexactly(length))))
                writer.write(self.responses.pop(0))
                if not self.responses:
                    return
        except (asyncio.IncompleteReadError, asyncio.CancelledError):  # the client has closed the connection, or the test has ended
            pass
        finally:
            writer.close()

    async def call(self) -> Any:
        return await self.etcd.call("/v3/kv/range", {"key": "eA=="}, 20)

    async def test_a_connection_is_kept_after_each_kind_of_response(self) -> None:
        self.responses = [LENGTH, CHUNKS, ERROR, LENGTH, LENGTH]
        self.assertEqual((await self.call(), await self.call()), ({"a": 1}, {"a": 2}))
        with self.assertRaisesRegex(Unavailable, "no space"):
            await self.call()
        self.assertEqual(await self.call(), {"a": 1})
        self.assertEqual((self.connections, self.requests), (1, [(b"/v3/kv/range", {"key": "eA=="})] * 4))

    async def test_what_is_no_whole_response(self) -> None:
        for response in (b"", b"nonsense\r\n\r\n", LENGTH[:-1], CHUNKS[:-5], OK + b"\r\n{}", OK + b"Content-Length: 2\r\n\r\n{]"):
            self.responses = [response]
            with self.assertRaises(Unavailable, msg=response):
                await self.call()
            self.assertEqual(self.etcd.idle, [])

    async def test_lines_that_chunks_cut(self) -> None:
        self.responses = [OK + b"Transfer-Encoding: chunked\r\n\r\n4\r\nab\nc\r\n1\r\nd\r\n2\r\n\n\n\r\n0\r\n\r\n"]
        self.assertEqual([it async for it in self.etcd.lines("/v3/watch", {})], [b"ab", b"cd", b""])
