"""One node: it applies the log to its avroreg, and answers requests."""
import asyncio
import contextlib
import dataclasses
import logging
import secrets
import threading
import time

from relay import digest, http1, messages, position, witness
from relay.malformed import is_malformed
from relay.appender import Appender
from relay.barrier import Barrier
from relay.config import Config
from relay.etcd import Etcd
from relay.faults import Broken, Refused, Unavailable
from relay.http1 import Request, Response
from relay.log import Entry, Log
from relay.metrics import Metrics
from relay.position import Position
from relay.registry import Registry
from relay.replies import Replies
from relay.skips import SKIPPED, Skip

RETRY_SECONDS = 0.2
BOOKS_SECONDS = 1.0
CHECK_SECONDS = 0.5  # between two checks whether nginx may read from avroreg
CURRENT_SECONDS = 2.0  # for one such check; an election may take longer
SLOW_SECONDS = 10.0

logger = logging.getLogger("avroreg-relay")


class Replica:
    def __init__(self, config: Config) -> None:
        self.config = config
        self.log = Log(Etcd(config.etcd))
        self.appender = Appender(self.log, config.patience_seconds, config.batch_messages, config.batch_bytes)
        self.position = self.saved = position.load(config.position)
        self.registry = Registry(config.registry, self.position.witness)
        self.saving = threading.Lock()
        self.barrier = Barrier(self.log.newest, self.position.revision)
        self.history = digest.History()
        self.history.add(self.position.revision, self.position.digest)
        self.metrics = Metrics()
        self.replies = Replies()
        self.skips: dict[int, Skip] = {}
        self.in_progress: tuple[int, float] | None = None  # the revision that avroreg applies, and since when
        self.broken: str | None = None
        self.troubles: dict[str, str] = {}  # the current errors, by part
        self.is_current = False  # whether this node has every write that it acknowledged or left to another node
        self.lags = False  # whether this node hadn't applied the log at the last check
        self.current_from = 0.0
        self.leave_to_others()  # a relay that was killed has left the file

    # --- Applying the log

    async def follow(self) -> None:
        """Applies the log's entries until this node stops."""
        while not self.broken:
            try:
                await self.check_log()
                async with contextlib.aclosing(self.log.entries(self.position.revision)) as entries:
                    async for entry in entries:
                        await self.apply(entry)
            except Unavailable as fault:
                self.end_local_reads()
                logger.warning("log: %s", fault)
                await asyncio.sleep(RETRY_SECONDS)
            except Broken as fault:
                self.stop(str(fault))

    async def check_log(self) -> None:
        """Checks that the log is that of the position, and has all entries after it. Somebody may have set up a new etcd."""
        name, base = await self.log.name(), await self.log.base()
        if self.position.log not in ("", name):
            raise Broken("this isn't the log of this node's position: etcd was set up anew")
        self.position = dataclasses.replace(self.position, log=name)
        if base and self.position.revision < base.revision:
            raise Broken("this cluster began from a file: adopt that file, or restore another node's backup")
        self.skips = await self.log.skips()

    async def messages_of(self, entry: Entry) -> list[bytes]:
        """The messages that the nodes apply for an entry."""
        while (skip := self.skips.get(entry.revision)) and not skip.decision:
            self.note("skip", f"revision {entry.revision} waits for the votes of the other nodes: avroreg-cluster skip")
            await asyncio.sleep(BOOKS_SECONDS)
            self.skips = await self.log.skips()
        self.troubles.pop("skip", None)
        if not skip or skip.decision != SKIPPED:
            return entry.messages()
        return [skip.replaced(message) for message in entry.messages()] if skip.key else []

    async def apply(self, entry: Entry) -> None:
        """Sends each message of an entry until avroreg answers it. A message that was applied earlier changes nothing."""
        seen = self.position.digest
        responses = []
        batch = await self.messages_of(entry)
        for message in batch:
            self.in_progress = entry.revision, time.monotonic()
            response = await self.send_until_answered(message, message is not batch[-1])
            self.registry.witness = witness.after(message, response, self.registry.witness)
            self.replies.add(message, response)
            seen = digest.extend(seen, entry.revision, message, response.status, response.body)
            responses.append(response)
        self.in_progress = None
        self.position = Position(self.position.log, entry.revision, seen, self.registry.witness)
        self.history.add(entry.revision, seen)
        self.metrics.applied += len(responses)
        self.appender.answer(entry, responses)
        self.barrier.set_applied(entry.revision)

    async def send_until_answered(self, message: bytes, is_followed: bool) -> Response:
        while True:
            try:
                response = await self.registry.ask(message, is_followed)
                self.troubles.pop("registry", None)
                return response
            except Unavailable as fault:
                self.end_local_reads()
                self.note("registry", str(fault))
                if self.broken:
                    raise Broken(self.broken) from fault
                await asyncio.sleep(RETRY_SECONDS)

    # --- Position and comparison

    async def keep_books(self) -> None:
        """Saves the position, then publishes it, then compares the nodes' digests, each second."""
        published = None
        while not self.broken:
            await asyncio.sleep(BOOKS_SECONDS)
            try:
                await asyncio.to_thread(self.save_position)
                saved = self.saved
                if saved != published:
                    await self.log.publish(self.config.node, saved.revision, saved.digest)
                    published = saved
                self.compare(await self.log.positions())
                self.troubles.pop("books", None)
            except (Unavailable, OSError) as fault:
                self.note("books", str(fault))
            except Broken as fault:
                self.stop(str(fault))

    def save_position(self) -> None:
        """Saves the position. It runs in its own thread, so that a slow disk doesn't delay requests."""
        with self.saving:
            at = self.position
            if at != self.saved:
                position.save(self.config.position, at)
                self.saved = at

    def compare(self, positions: dict[str, dict[str, object]]) -> None:
        contradicting = self.history.contradicting(positions, self.config.node)
        if digest.is_outvoted(contradicting, len(positions.keys() | {self.config.node})):
            raise Broken(f"{' and '.join(contradicting)} answered otherwise than this node")
        if contradicting:
            self.note("digest", f"{' and '.join(contradicting)} answered otherwise than this node")
        else:
            self.troubles.pop("digest", None)

    def note(self, part: str, trouble: str) -> None:
        if self.troubles.get(part) != trouble:
            logger.warning("%s: %s", part, trouble)
        self.troubles[part] = trouble

    def stop(self, reason: str) -> None:
        """Stops permanently: this node answers 503 until somebody rebuilds it."""
        logger.error("stopped: %s", reason)
        self.broken = reason
        self.end_local_reads()

    # --- Local reads: the file that makes nginx send reads directly to avroreg

    async def keep_local_reads(self) -> None:
        """Lets nginx read from avroreg while this node follows the log, has applied it, and avroreg serves this node's registry."""
        while not self.broken:
            began = self.current_from
            try:
                await self.check_applied()
                await self.registry.check(CURRENT_SECONDS)
                self.troubles.pop("reads", None)
                if began == self.current_from:  # otherwise a write was left to another node meanwhile
                    self.allow_local_reads()
            except Unavailable as fault:
                self.end_local_reads()
                self.note("reads", str(fault))
            await asyncio.sleep(CHECK_SECONDS)

    async def check_applied(self) -> None:
        """Fails unless this node has applied the entry that is the newest now."""
        try:
            await self.barrier.wait(CURRENT_SECONDS)
            self.lags = False
        except Unavailable:
            self.lags = True
            raise

    def allow_local_reads(self) -> None:
        if self.log.is_followed and not self.broken and time.monotonic() >= self.current_from:
            self.is_current = True
            self.config.local_reads.touch(0o644)

    def end_local_reads(self) -> None:
        self.is_current = False
        self.config.local_reads.unlink(missing_ok=True)

    def leave_to_others(self) -> None:
        """After this relay hasn't acknowledged a write, nginx sends it to another node. Until this node surely has it, reads ask a majority."""
        self.current_from = time.monotonic() + self.config.failover_seconds
        self.end_local_reads()

    # --- Requests

    async def answer(self, request: Request) -> tuple[bytes, Response]:
        """The retry key and the response of a request."""
        if self.broken:
            raise Refused(50303, "This node is stopped")
        if messages.is_write(request.line):
            return await self.write(request)
        return b"", await self.read(request)

    async def write(self, request: Request) -> tuple[bytes, Response]:
        """Appends a write. It gets its key before the first attempt, so every retry has the same key."""
        key = request.keys[0] if request.keys else secrets.token_hex(16).encode()
        if len(request.keys) > 1 or not messages.KEY.fullmatch(key):
            raise Refused(40001, "Malformed request")
        if is_malformed(request.line, request.body):
            raise Refused(40001, "Malformed request")
        body = b"" if request.line.startswith(b"DELETE ") else request.body  # avroreg ignores it
        message = messages.message(request.line, key, body)
        if known := self.replies.find(message):
            return key, known
        if self.barrier.is_behind(self.config.patience_seconds):  # its client wouldn't get a response, and each retry would go into the log
            self.leave_to_others()
            raise Refused(http1.BUSY, "This node lags behind the log")
        try:
            return key, await self.appender.response_to(message)
        except Unavailable:
            refused = Refused(50301, "No response yet, and the write may still be applied: retry it with its key")
        except Refused as fault:
            refused = fault
        self.leave_to_others()
        return key, http1.refusal(refused)

    async def read(self, request: Request) -> Response:
        """Reads from this node's avroreg. A fresh read first waits for the newest entry, and so does a read that found nothing.
        If this node may lack a write that it acknowledged or left to another node, each read does, unless the client accepts
        an old state."""
        message = messages.message(request.line, messages.NO_KEY, request.body)
        if request.may_be_stale or (self.is_current and not request.is_fresh):
            response = await self.registry.ask(message)
            if not response.found_nothing():
                return response
        if self.lags:  # nginx asks another node at once
            raise Unavailable("this node lags behind the log")
        await self.barrier.wait(self.config.patience_seconds)
        return await self.registry.ask(message)

    # --- State

    def all_troubles(self) -> dict[str, str]:
        """The current errors, by part."""
        found = dict(self.troubles)
        if not self.log.is_followed:
            found["log"] = "it isn't followed"
        if self.in_progress and time.monotonic() > self.in_progress[1] + SLOW_SECONDS:
            found["entry"] = f"avroreg has been working on revision {self.in_progress[0]} for {time.monotonic() - self.in_progress[1]:.0f} s"
        return found

    def health(self) -> dict[str, object]:
        troubles, at = self.all_troubles(), self.position
        # If a minority of the nodes contradicts this one, that is their trouble.
        status = "stopped" if self.broken else "trouble" if troubles.keys() - {"digest"} else "ok"
        return {
            "node": self.config.node,
            "status": status,
            "reasons": [self.broken] if self.broken else [f"{part}: {it}" for part, it in sorted(troubles.items())],
            "log": at.log,
            "revision": at.revision,
            "digest": at.digest,
            "saved": self.saved.revision,
        }

    def metrics_text(self) -> str:
        gauges = {
            "revision": self.position.revision,
            "saved_revision": self.saved.revision,
            "waiting_writes": len(self.appender.waiting),
            "stopped": int(self.broken is not None),
        }
        return self.metrics.text(gauges, self.all_troubles())

    def close(self) -> None:
        """Saves the position and closes the connections. The work must have ended."""
        self.end_local_reads()
        self.save_position()
        self.registry.close()
        self.log.etcd.close()
