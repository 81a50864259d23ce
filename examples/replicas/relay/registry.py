"""This node's avroreg.

The relay has at most one connection to avroreg. It closes it when it has nothing more to send, or after a short turn.
It never pipelines messages of the log: if avroreg returns 50001 for a write, no later write may be applied before that write.

On each connection avroreg first proves that it serves this node's registry. Somebody may have started it with another file.
"""
import asyncio
import contextlib
import time
from typing import AsyncIterator

from relay import http1
from relay.config import Address
from relay.faults import Unavailable
from relay.http1 import Response
from relay.witness import Witness

LIMIT = 65536  # a response head is far shorter
SECONDS = 60.0  # a check of two large schemas can take seconds
TURN_SECONDS = 0.01  # the longest use of one connection while messages follow
BACKEND_FAULT = 500


class Registry:
    def __init__(self, address: Address, witness: Witness | None = None) -> None:
        self.address, self.witness = address, witness
        self.turn = asyncio.Lock()
        self.asking = 0  # the messages that wait for their turn or for their response
        self.streams: tuple[asyncio.StreamReader, asyncio.StreamWriter] | None = None
        self.turn_ends = 0.0

    async def ask(self, message: bytes, is_followed: bool = False) -> Response:
        """The response to a message that may be sent twice: a read, a write with a key, or a rejected write.

        `is_followed` means that another message follows at once. avroreg may close a kept connection between two messages at
        any time, so after a failure on a kept connection the message is sent again.
        """
        self.asking += 1
        try:
            async with self.turn:
                response = await self.exchange_again(message)
                if time.monotonic() >= self.turn_ends or not (is_followed or self.asking > 1):
                    self.close()
                return response
        finally:
            self.asking -= 1

    async def check(self, seconds: float) -> None:
        """Fails unless avroreg serves this node's registry now."""
        try:
            async with asyncio.timeout(seconds), self.turn:
                self.close()
                async with self.closing_after_a_fault():
                    await self.connect()
                self.close()
        except TimeoutError as fault:
            raise Unavailable("avroreg doesn't answer in time") from fault

    async def exchange_again(self, message: bytes) -> Response:
        if self.streams:
            try:
                return await self.exchange(message)
            except Unavailable:
                pass
        return await self.exchange(message)

    async def exchange(self, message: bytes) -> Response:
        """Sends a message. On a new connection, avroreg first proves which registry it serves."""
        async with self.closing_after_a_fault():
            await self.connect()
            return await self.response_to(message)

    @contextlib.asynccontextmanager
    async def closing_after_a_fault(self) -> AsyncIterator[None]:
        try:
            async with asyncio.timeout(SECONDS):
                yield
        except OSError as fault:
            self.close()
            raise Unavailable(f"avroreg: {fault!r}") from fault
        except BaseException:
            self.close()
            raise

    async def connect(self) -> None:
        if self.streams:
            return
        self.streams = await asyncio.open_connection(*self.address, limit=LIMIT)
        self.turn_ends = time.monotonic() + TURN_SECONDS
        if self.witness:
            to_question = await self.response_to(self.witness.question())
            self.witness.check(to_question, await self.response_to(self.witness.message))

    async def response_to(self, message: bytes) -> Response:
        if not self.streams:
            raise Unavailable("avroreg closed the connection")
        reader, writer = self.streams
        writer.write(message)
        response, is_last = await http1.read_response(reader)
        if is_last:
            self.close()
        if response.status == BACKEND_FAULT:
            self.close()
            raise Unavailable("avroreg returned 50001: an allocation or its disk failed; restart avroreg")
        return response

    def close(self) -> None:
        if self.streams:
            self.streams[1].close()
            self.streams = None
