"""Appends writes to the log in batches, one transaction at a time.

The writes that arrive during a transaction go together into the next one. So a lone write waits for no other one, and
many writes share one commit of etcd.
"""
import asyncio
import collections
import dataclasses
import secrets
import time

from relay.faults import Refused, Unavailable
from relay.http1 import Response
from relay.log import Entry, Log

RETRY_SECONDS = 0.1


@dataclasses.dataclass(eq=False)
class Write:
    message: bytes
    response: asyncio.Future[Response]


class Appender:
    def __init__(self, log: Log, patience_seconds: float, batch_messages: int, batch_bytes: int) -> None:
        self.log, self.patience = log, patience_seconds
        self.batch_messages, self.batch_bytes = batch_messages, batch_bytes
        self.waiting: collections.deque[Write] = collections.deque()
        self.appended: dict[bytes, list[asyncio.Future[Response]]] = {}  # the writers of batches without responses yet, by name
        self.has_work = asyncio.Event()

    async def response_to(self, message: bytes) -> Response:
        """Appends a message, and waits for the response of this node's avroreg."""
        write = Write(message, asyncio.get_running_loop().create_future())
        self.waiting.append(write)
        self.has_work.set()
        try:
            async with asyncio.timeout(self.patience):
                return await write.response
        except TimeoutError as fault:
            raise Unavailable("no response yet") from fault
        finally:
            if write in self.waiting:
                self.waiting.remove(write)

    def answer(self, entry: Entry, responses: list[Response]) -> None:
        """Delivers the responses to an entry that this node has applied."""
        for writer, response in zip(self.appended.pop(entry.name, []), responses):
            if not writer.done():
                writer.set_result(response)

    async def run(self) -> None:
        """Appends batch after batch, until it is canceled."""
        while True:
            await self.has_work.wait()
            if batch := self.next_batch():
                await self.append(batch)
            else:
                self.has_work.clear()

    def next_batch(self) -> list[Write]:
        """The writes of the next entry: those whose clients still wait, in order of arrival."""
        batch: list[Write] = []
        size = 0
        while self.waiting and len(batch) < self.batch_messages:
            if self.waiting[0].response.done():
                self.waiting.popleft()
                continue
            size += len(self.waiting[0].message)
            if batch and size > self.batch_bytes:
                break
            batch.append(self.waiting.popleft())
        return batch

    async def append(self, batch: list[Write]) -> None:
        """Appends a batch under one name until etcd confirms it or no client waits for it any more."""
        name = secrets.token_hex(16).encode()
        joined = b"".join(write.message for write in batch)
        writers = self.appended[name] = [write.response for write in batch]
        del batch  # its messages may be large
        until, is_unsure = time.monotonic() + self.patience, False
        while time.monotonic() < until and not all(it.done() for it in writers):
            try:
                await self.log.append(name, joined)
                break
            except Unavailable:
                is_unsure = True
                await asyncio.sleep(RETRY_SECONDS)
            except Refused as refusal:
                # An earlier attempt may still be in progress, and be applied after the pause.
                self.fail(name, Unavailable("no response yet") if is_unsure else refusal)
                return
        self.forget_later(name)

    def fail(self, name: bytes, fault: Exception) -> None:
        for writer in self.appended.pop(name, []):
            if not writer.done():
                writer.set_exception(fault)

    def forget_later(self, name: bytes) -> None:
        """Drops the batch once no client can wait for it any more."""
        asyncio.get_running_loop().call_later(self.patience + 1, self.appended.pop, name, None)
