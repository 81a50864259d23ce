"""The two listeners of a relay: one for clients, and one for /health and /metrics."""
import asyncio
import contextlib
import logging
import time

from relay import http1, messages
from relay.budget import Budget
from relay.faults import Refused, Unavailable
from relay.http1 import Request, Response
from relay.replica import Replica

BACKLOG = 512
CLOSING_SECONDS = 5.0
LINGER_SECONDS = 1.0
LARGE = 65536
COPIES = 2  # of a body: as it arrived, and as a message

logger = logging.getLogger("avroreg-relay")


class Server:
    """Serves connections. On each connection it answers one request after the other."""

    def __init__(self, replica: Replica) -> None:
        self.replica, self.config = replica, replica.config
        self.budget = Budget(self.config.max_bytes)
        self.tasks: set[asyncio.Task[None]] = set()
        self.busy: set[asyncio.Task[None]] = set()
        self.is_closing = False
        self.listeners: list[asyncio.Server] = []

    async def start(self) -> None:
        for address, serve in ((self.config.listen, self.serve_client), (self.config.admin, self.serve_admin)):
            self.listeners.append(await asyncio.start_server(serve, *address, limit=http1.MAX_HEAD, backlog=BACKLOG))

    async def close(self) -> None:
        """Accepts no more connections, and waits for the requests in progress."""
        self.is_closing = True
        for listener in self.listeners:
            listener.close()
        for task in self.tasks - self.busy:
            task.cancel()
        if self.busy:
            await asyncio.wait(self.busy, timeout=self.config.patience_seconds + CLOSING_SECONDS)

    async def serve_client(self, reader: asyncio.StreamReader, writer: asyncio.StreamWriter) -> None:
        task = asyncio.current_task()
        assert task
        self.tasks.add(task)
        try:
            if len(self.tasks) > self.config.max_connections:
                await self.refuse(reader, writer, Refused(http1.BUSY, "This node has too many connections now"))
                return
            while await self.serve_one(reader, writer, task):
                pass
        except Refused as refused:
            await self.refuse(reader, writer, refused)
        except (OSError, asyncio.CancelledError):
            pass
        finally:
            self.busy.discard(task)
            self.tasks.discard(task)
            writer.close()

    async def serve_one(self, reader: asyncio.StreamReader, writer: asyncio.StreamWriter, task: asyncio.Task[None]) -> bool:
        """Answers one request. Returns whether another one may follow. `Refused` means that the request wasn't read to its end."""
        with contextlib.ExitStack() as reserved:
            async with asyncio.timeout(self.config.idle_seconds):
                request = await http1.read_request(reader, lambda length: reserved.enter_context(self.budget.reserved(COPIES * length)))
            if request is None:
                return False
            self.busy.add(task)
            began, is_last = time.monotonic(), request.is_last or self.is_closing
            key, response = await self.answer(request, reserved)
            self.replica.metrics.count_response(kind_of(request), response.status, began)
            writer.write(http1.write_response(response, key, is_last))
            del request, response
            async with asyncio.timeout(self.config.idle_seconds):
                await writer.drain()
        self.busy.discard(task)
        return not is_last

    async def answer(self, request: Request, reserved: contextlib.ExitStack) -> tuple[bytes, Response]:
        """The retry key and the response. The bytes of a large response to a read are reserved too."""
        try:
            key, response = await self.replica.answer(request)
            if request.line.startswith(b"HEAD "):  # avroreg's response to HEAD has a body, which HTTP doesn't allow
                response = response._replace(body=b"")
            if not key and len(response.body) > LARGE:
                reserved.enter_context(self.budget.reserved(len(response.body)))
            return key, response
        except Refused as refused:
            return b"", http1.refusal(refused)
        except Unavailable as fault:
            logger.debug("a read: %s", fault)
            return b"", http1.refusal(Refused(50302, "This node can't answer now"))

    async def refuse(self, reader: asyncio.StreamReader, writer: asyncio.StreamWriter, refused: Refused) -> None:
        """Refuses a request that wasn't read to its end. Discards what still arrives, so that the client gets the response."""
        if refused.code == http1.BUSY:
            self.replica.leave_to_others()
        response = http1.refusal(refused)
        self.replica.metrics.count_response("faulty", response.status, time.monotonic())
        writer.write(http1.write_response(response, b"", True))
        with contextlib.suppress(OSError):
            async with asyncio.timeout(LINGER_SECONDS):
                await writer.drain()
                writer.write_eof()
                while await reader.read(http1.MAX_HEAD):
                    pass

    async def serve_admin(self, reader: asyncio.StreamReader, writer: asyncio.StreamWriter) -> None:
        try:
            async with asyncio.timeout(10):
                request = await http1.read_request(reader)
                if request:
                    writer.write(http1.write_response(self.admin(request), b"", True))
                    await writer.drain()
        except (OSError, Refused):
            pass
        finally:
            writer.close()

    def admin(self, request: Request) -> Response:
        if request.line == b"GET /health":
            health = self.replica.health()
            return http1.json_response(200 if health["status"] == "ok" else 503, health, b"application/json")
        if request.line == b"GET /metrics":
            body = self.replica.metrics_text().encode()
            head = b"Content-Type: text/plain; version=0.0.4\r\nContent-Length: %d\r\n" % len(body)
            return Response(200, head, body)
        return http1.refusal(Refused(404, "Not found"))


def kind_of(request: Request) -> str:
    if messages.is_write(request.line):
        return "write"
    return "fresh_read" if request.is_fresh else "read"
