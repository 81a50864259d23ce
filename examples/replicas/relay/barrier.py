"""Fresh reads: they wait until this node has applied every write that was acknowledged by any node before the read arrived."""
import asyncio
import time
from typing import Awaitable, Callable

from relay.faults import Unavailable

RETRY_SECONDS = 0.1


class Barrier:
    """`ask_newest` returns the revision of the newest entry on a majority of etcd's members."""

    def __init__(self, ask_newest: Callable[[], Awaitable[int]], applied: int) -> None:
        self.ask_newest, self.applied = ask_newest, applied
        self.turn = asyncio.Lock()
        self.next_query: asyncio.Task[int] | None = None
        self.waiting: list[tuple[int, asyncio.Future[None]]] = []
        self.awaited = 0, 0.0  # a revision that was the newest at this time; the first one that isn't applied yet

    def set_applied(self, revision: int) -> None:
        """Records that this node has applied the entries up to a revision."""
        self.applied = revision
        for wanted, future in self.waiting:
            if wanted <= revision and not future.done():
                future.set_result(None)
        self.waiting = [it for it in self.waiting if not it[1].done()]

    def is_behind(self, seconds: float) -> bool:
        """Whether this node hasn't applied an entry that was the newest more than these seconds ago."""
        revision, since = self.awaited
        return self.applied < revision and time.monotonic() > since + seconds

    async def wait(self, seconds: float) -> None:
        """Waits until this node has applied the entry that is the newest now."""
        try:
            async with asyncio.timeout(seconds):
                await self.until_applied(await self.newest())
        except TimeoutError as fault:
            raise Unavailable("no majority of etcd answers, or this node lags behind it") from fault

    async def newest(self) -> int:
        while True:
            try:
                return await self.shared_query()
            except Unavailable:
                await asyncio.sleep(RETRY_SECONDS)

    async def shared_query(self) -> int:
        """Reads share a query that begins after each of them arrived. The query in progress is too old for a read that arrives now."""
        if self.next_query is None:
            self.next_query = asyncio.create_task(self.query())
            self.next_query.add_done_callback(lambda it: it.cancelled() or it.exception())  # perhaps nobody waits any more
        return await asyncio.shield(self.next_query)

    async def query(self) -> int:
        async with self.turn:
            self.next_query = None
            newest = await self.ask_newest()
            if self.applied >= self.awaited[0]:
                self.awaited = newest, time.monotonic()
            return newest

    async def until_applied(self, revision: int) -> None:
        if self.applied < revision:
            future = asyncio.get_running_loop().create_future()
            self.waiting.append((revision, future))
            await future
