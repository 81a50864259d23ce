"""The relay with a stand-in for avroreg: which messages it repeats, and that no write overtakes one without a response."""
import asyncio
import dataclasses
import pathlib
import tempfile
import threading
import time
import unittest
from typing import AsyncGenerator
from unittest import mock

from relay import config, digest, messages, position, registry
from relay.config import Address
from relay.faults import Refused, Unavailable
from relay.http1 import Request
from relay.log import Base, Entry, Log
from relay.position import Position
from relay.registry import Registry
from relay.replica import Replica
from relay.skips import APPLIED, SKIPPED, Skip
from relay.witness import Witness
from tests import eventually

READ = Request(b"GET /schemas/ids/1", (), b"", False, False)
WRITE = Request(b"PUT /config", (b"k",), b'{"compatibility":"FULL"}', False, False)
RELAY_TOML = pathlib.Path(__file__).parent.parent / "relay.toml"


class StandIn:
    """A stand-in for avroreg. It keeps the lines of its messages, and misbehaves by one word of `moods` for each message.

    It knows each message that it answered, as avroreg does by the retry key, and answers the questions of the relay's proof.
    """

    def __init__(self) -> None:
        self.got: list[bytes] = []
        self.heads: list[bytes] = []
        self.moods: list[str] = []
        self.replies: dict[bytes, bytes] = {}  # by the retry key
        self.connections = self.questions = 0

    async def start(self) -> Address:
        self.server = await asyncio.start_server(self.serve, "127.0.0.1", 0)
        return Address(*self.server.sockets[0].getsockname())

    async def serve(self, reader: asyncio.StreamReader, writer: asyncio.StreamWriter) -> None:
        self.connections += 1
        try:
            while True:
                head = await reader.readuntil(b"\r\n\r\n")
                length, key = int(head.partition(b"Content-Length: ")[2]), messages.key_of(head)
                body = await reader.readexactly(length)
                if not (await self.prove(reader, writer, key) if b'{"mode": ' in body else await self.answer(head, key, writer)):
                    return
        except (asyncio.IncompleteReadError, asyncio.CancelledError):
            pass
        finally:
            writer.close()

    async def prove(self, reader: asyncio.StreamReader, writer: asyncio.StreamWriter, key: bytes) -> bool:
        """Answers a question, and the message after it, whose response the registry has kept."""
        self.questions += 1
        code = 42290 if key in self.replies else 42204
        self.send(writer, b"422 No", b'{"error_code":%d}' % code)
        witnessed = await reader.readuntil(b"\r\n\r\n")
        await reader.readexactly(int(witnessed.partition(b"Content-Length: ")[2]))
        self.send(writer, b"200 OK" if key in self.replies else b"422 No", self.replies.get(key, b'{"error_code":42290}'))
        return True

    async def answer(self, head: bytes, key: bytes, writer: asyncio.StreamWriter) -> bool:
        """Answers a message by its mood. Returns whether another one may follow."""
        mood = self.moods.pop(0) if self.moods else "answer"
        if mood == "close unread":
            return False
        self.got.append(head.partition(b"\r\n")[0])
        self.heads.append(head)
        if mood == "close":
            return False
        if mood == "slow":
            await asyncio.sleep(0.2)
        status = b"500 Internal Server Error" if mood == "fault" else b"404 Not Found" if mood == "missing" else b"200 OK"
        body = b"%d" % len(self.got)
        self.send(writer, status, body, b"Connection: close\r\n" if mood == "last" else b"")
        if mood == "answer":
            self.replies[key] = body
        return mood != "last"

    def send(self, writer: asyncio.StreamWriter, status: bytes, body: bytes, end: bytes = b"") -> None:
        writer.write(b"HTTP/1.1 %s\r\nContent-Length: %d\r\n%s\r\n%s" % (status, len(body), end, body))


def write(number: int) -> bytes:
    return messages.message(b"PUT /config/%d" % number, b"k%d" % number, b"")


def line(number: int) -> bytes:
    return b"PUT /config/%d HTTP/1.1" % number


class Asking(unittest.IsolatedAsyncioTestCase):
    async def asyncSetUp(self) -> None:
        self.avroreg = StandIn()
        self.registry = Registry(await self.avroreg.start())

    async def asyncTearDown(self) -> None:
        self.registry.close()
        self.avroreg.server.close()

    @mock.patch.object(registry, "TURN_SECONDS", 30)
    async def test_one_connection_while_messages_follow(self) -> None:
        await asyncio.gather(*(self.registry.ask(write(it)) for it in range(5)))
        self.assertEqual((self.avroreg.got, self.avroreg.connections), ([line(it) for it in range(5)], 1))
        self.assertIsNone(self.registry.streams)
        for number in range(5, 8):
            await self.registry.ask(write(number), number < 7)
        self.assertEqual((len(self.avroreg.got), self.avroreg.connections), (8, 2))
        self.assertIsNone(self.registry.streams)

    @mock.patch.object(registry, "TURN_SECONDS", 0)
    async def test_a_turn_ends_though_messages_follow(self) -> None:
        await asyncio.gather(*(self.registry.ask(write(it), True) for it in range(5)))
        self.assertEqual((self.avroreg.got, self.avroreg.connections), ([line(it) for it in range(5)], 5))
        self.assertIsNone(self.registry.streams)

    @mock.patch.object(registry, "TURN_SECONDS", 30)
    async def test_a_kept_connection_that_was_closed(self) -> None:
        self.avroreg.moods = ["answer", "close unread", "answer", "last", "answer"]
        for number in range(4):
            self.assertEqual((await self.registry.ask(write(number), True)).status, 200)
        self.assertEqual((self.avroreg.got, self.avroreg.connections), ([line(it) for it in range(4)], 3))

    @mock.patch.object(registry, "TURN_SECONDS", 30)
    async def test_faults(self) -> None:
        for moods in (["close"], ["fault"], ["answer", "fault", "fault"], ["answer", "close", "close"]):
            self.avroreg.moods = moods
            with self.assertRaises(Unavailable):
                for number in range(len(moods)):
                    await self.registry.ask(write(number), True)

    async def test_nobody_listens(self) -> None:
        self.avroreg.server.close()
        with self.assertRaises(Unavailable):
            await self.registry.ask(write(0))

    async def test_a_cancelled_request_leaves_no_response_behind(self) -> None:
        self.avroreg.moods = ["slow"]
        asking = asyncio.create_task(self.registry.ask(write(0), True))
        await eventually(lambda: bool(self.avroreg.got))
        asking.cancel()
        await asyncio.gather(asking, return_exceptions=True)
        found = await self.registry.ask(write(1))
        self.assertEqual(int(found.body), len(self.avroreg.got))


class StandInLog(Log):
    """A log with the entries of a test."""

    def __init__(self, entries: list[Entry], newest: int = 0) -> None:
        self.all, self.last, self.queries = entries, newest, 0
        self.is_followed = True
        self.published: list[tuple[int, int]] = []
        self.others: dict[str, dict[str, object]] = {}
        self.compared = 0
        self.start: Base | None = None
        self.is_new = False
        self.skipped: dict[int, Skip] = {}
        self.path = pathlib.Path()

    async def entries(self, after: int) -> AsyncGenerator[Entry, None]:
        for entry in self.all:
            if entry.revision > after:
                yield entry
        while not self.is_new:
            await asyncio.sleep(0.01)
        raise Unavailable("etcd ended")

    async def name(self) -> str:
        return "new" if self.is_new else "c"

    async def base(self) -> Base | None:
        return self.start

    async def newest(self) -> int:
        self.queries += 1
        return self.last

    async def publish(self, node: str, revision: int, seen: str) -> None:
        self.published.append((revision, position.load(self.path).revision))

    async def skips(self) -> dict[int, Skip]:
        return self.skipped

    async def positions(self) -> dict[str, dict[str, object]]:
        self.compared += 1
        return self.others


def entries(*sizes: int) -> list[Entry]:
    """Entries with these numbers of messages, at the revisions 10, 20 ..: message N is write N."""
    found, number = [], 0
    for at, size in enumerate(sizes):
        found.append(Entry(10 * at + 10, b"%d" % at, b"".join(write(it) for it in range(number, number + size))))
        number += size
    return found


class Applying(unittest.IsolatedAsyncioTestCase):
    async def asyncSetUp(self) -> None:
        self.avroreg = StandIn()
        self.folder = tempfile.TemporaryDirectory()
        self.path = pathlib.Path(self.folder.name) / "position"
        self.local_reads = self.path.with_name("local-reads")
        path = self.path.with_name("relay.toml")
        host, port = await self.avroreg.start()
        text = RELAY_TOML.read_text().replace("/var/lib/avroreg-relay/position", str(self.path))
        text = text.replace("/run/avroreg-relay/local-reads", str(self.local_reads))
        path.write_text(text.replace("127.0.0.1:8081", f"{host}:{port}").replace("patience_seconds = 8.0", "patience_seconds = 3.0").replace("failover_seconds = 25.0", "failover_seconds = 0.0"))
        self.config = config.load(path)
        self.work: list[asyncio.Task[None]] = []
        self.replicas: list[Replica] = []

    async def asyncTearDown(self) -> None:
        for task in self.work:
            task.cancel()
        await asyncio.gather(*self.work, return_exceptions=True)
        for replica in self.replicas:
            replica.close()
        self.avroreg.server.close()
        self.folder.cleanup()

    def replica(self, log: StandInLog) -> Replica:
        replica = Replica(self.config)
        self.replicas.append(replica)
        log.etcd, replica.log, log.path = replica.log.etcd, log, self.path
        replica.barrier.ask_newest = log.newest
        self.work += [*map(asyncio.create_task, (replica.follow(), replica.keep_books(), replica.keep_local_reads()))]
        return replica

    async def test_no_write_passes_one_without_a_response(self) -> None:
        self.avroreg.moods = ["answer", "fault", "close", "fault", "answer"]
        replica = self.replica(StandInLog(entries(2, 3)))
        await eventually(lambda: replica.position.revision == 20)
        self.assertEqual(self.avroreg.got, [line(it) for it in (0, 1, 1, 1, 1, 2, 3, 4)])
        seen = ""
        for revision, numbers, first in ((10, (0, 1), 0), (20, (2, 3, 4), 3)):
            for at, number in enumerate(numbers):
                body = b"1" if number == 0 else b"%d" % (first + at + (4 if revision == 10 else 3))
                seen = digest.extend(seen, revision, write(number), 200, body)
        last = Witness(write(4), 200, b"8")
        self.assertEqual(replica.position, Position("c", 20, seen, last))

    async def test_it_goes_on_from_its_position(self) -> None:
        position.save(self.path, Position("c", 10, "d"))
        replica = self.replica(StandInLog(entries(1, 1)))
        await eventually(lambda: replica.position.revision == 20)
        self.assertEqual(self.avroreg.got, [line(1)])

    async def test_a_position_is_saved_before_it_is_published(self) -> None:
        log = StandInLog(entries(1, 1))
        self.replica(log)
        await eventually(lambda: bool(log.published) and log.published[-1][0] == 20)
        self.assertEqual([it for it in log.published if it[0] != it[1]], [])

    async def test_etcd_is_set_up_anew_under_a_running_relay(self) -> None:
        log = StandInLog(entries(1))
        replica = self.replica(log)
        await eventually(lambda: replica.position.revision == 10)
        log.is_new, log.all = True, entries(1, 1)
        await eventually(lambda: replica.broken is not None)
        self.assertEqual(self.avroreg.got, [line(0)])

    async def test_a_slow_disk_holds_up_no_request(self) -> None:
        replica = self.replica(StandInLog(entries(1)))
        is_saving, go_on = threading.Event(), threading.Event()

        def save(path: pathlib.Path, at: Position) -> None:
            is_saving.set()
            go_on.wait(30)

        with mock.patch.object(position, "save", save):
            await eventually(is_saving.is_set)
            self.assertEqual((await replica.answer(Request(b"GET /config", (), b"", False, False)))[1].status, 200)
            self.assertEqual(replica.saved, Position())
            go_on.set()
            await eventually(lambda: replica.saved.revision == 10)

    async def test_another_log(self) -> None:
        position.save(self.path, Position("other", 5, "d"))
        replica = self.replica(StandInLog(entries(1)))
        await eventually(lambda: replica.broken is not None)
        self.assertEqual(self.avroreg.got, [])

    async def test_a_cluster_that_began_from_a_file(self) -> None:
        log = StandInLog(entries(1))
        log.start = Base(7, "d")
        replica = self.replica(log)
        await eventually(lambda: replica.broken is not None)
        self.assertEqual(self.avroreg.got, [])

    async def test_what_is_no_batch(self) -> None:
        replica = self.replica(StandInLog([Entry(10, b"0", b"nonsense")]))
        await eventually(lambda: replica.broken is not None)
        self.assertEqual(replica.position, Position("c"))

    async def test_most_nodes_answered_otherwise(self) -> None:
        log = StandInLog(entries(1))
        replica = self.replica(log)
        await eventually(lambda: replica.position.revision == 10)
        log.others = {"n2": {"revision": 10, "digest": "x"}, "n3": {"revision": 10, "digest": replica.position.digest}}
        await eventually(lambda: replica.health()["reasons"] == ["digest: n2 answered otherwise than this node"])
        self.assertEqual((replica.broken, replica.health()["status"]), (None, "ok"))
        log.others["n3"]["digest"] = "x"
        await eventually(lambda: replica.broken is not None)
        self.assertEqual(replica.health()["status"], "stopped")

    async def test_when_nginx_may_read_from_avroreg(self) -> None:
        """nginx may read from avroreg once the node follows the log and has applied it, until it stops or ends."""
        self.local_reads.touch()  # left by a killed relay
        log = StandInLog(entries(1))
        log.is_followed = False
        replica = self.replica(log)
        self.assertFalse(self.local_reads.exists())
        await eventually(lambda: bool(log.queries > 1))
        self.assertFalse(self.local_reads.exists())
        log.is_followed = True
        await eventually(self.local_reads.exists)
        replica.stop("it is to be rebuilt")
        self.assertFalse(self.local_reads.exists())
        replica.allow_local_reads()  # a comparison that was in progress
        self.assertFalse(self.local_reads.exists())

    async def test_a_relay_that_ends_leaves_no_file(self) -> None:
        replica = self.replica(StandInLog(entries(1)))
        await eventually(self.local_reads.exists)
        self.work[-1].cancel()
        await asyncio.gather(self.work[-1], return_exceptions=True)
        replica.close()
        self.assertFalse(self.local_reads.exists())

    async def current(self, log: StandInLog) -> Replica:
        """A relay that lets nginx read from avroreg, and doesn't check this again."""
        replica = self.replica(log)
        await eventually(self.local_reads.exists)
        self.work[-1].cancel()
        await asyncio.gather(self.work[-1], return_exceptions=True)
        log.queries = 0
        return replica

    async def test_which_reads_ask_the_majority(self) -> None:
        log = StandInLog([], newest=0)
        replica = await self.current(log)
        self.assertEqual((await replica.answer(READ))[1].status, 200)
        self.assertEqual(log.queries, 0)
        self.avroreg.moods = ["missing", "answer"]
        self.assertEqual((await replica.answer(READ))[1].status, 200)
        self.assertEqual(log.queries, 1)
        self.assertEqual((await replica.answer(READ._replace(is_fresh=True)))[1].status, 200)
        self.assertEqual(log.queries, 2)
        log.last = 10  # an entry that this node hasn't applied
        self.avroreg.moods = ["missing"]
        with self.assertRaises(Unavailable):
            await replica.answer(READ)

    async def test_reads_of_a_node_that_may_lack_a_write(self) -> None:
        log = StandInLog([], newest=0)
        replica = await self.current(log)
        replica.end_local_reads()
        self.assertEqual((await replica.answer(READ))[1].status, 200)
        self.assertEqual(log.queries, 1)
        log.last = 10
        with self.assertRaises(Unavailable):
            await replica.answer(READ)
        log.queries = 0
        self.assertEqual((await replica.answer(READ._replace(may_be_stale=True)))[1].status, 200)
        self.assertEqual(log.queries, 0)

    async def test_after_a_write_that_another_node_may_acknowledge(self) -> None:
        """The relay hasn't acknowledged a write, so nginx sends it to another node. Until this node surely has it, nginx doesn't read here."""
        self.config = dataclasses.replace(self.config, patience_seconds=0.1, failover_seconds=1.0)
        replica = self.replica(StandInLog([]))
        await eventually(self.local_reads.exists)
        key, response = await replica.answer(WRITE)
        self.assertEqual((key, response.status, self.local_reads.exists()), (b"k", 503, False))
        began = time.monotonic()
        await eventually(self.local_reads.exists)
        self.assertGreater(time.monotonic() - began, 0.9)

    async def test_a_retry_of_an_applied_write(self) -> None:
        """It gets the first response, and isn't appended, even if the node lags. Another request with the key is appended."""
        self.config = dataclasses.replace(self.config, patience_seconds=0.1)
        applied = messages.message(WRITE.line, WRITE.keys[0], WRITE.body)
        replica = self.replica(StandInLog([Entry(10, b"0", applied), Entry(20, b"1", write(7))], newest=30))
        await eventually(lambda: replica.position.revision == 20 and replica.barrier.is_behind(0.1))
        key, response = await replica.answer(WRITE)
        self.assertEqual((key, response.status, response.body), (b"k", 200, b"1"))
        self.assertEqual((len(self.avroreg.got), len(replica.appender.waiting)), (2, 0))
        with self.assertRaises(Refused):
            await replica.answer(WRITE._replace(body=b'{"compatibility":"NONE"}'))

    async def test_a_node_that_lags_appends_no_write(self) -> None:
        """Its client wouldn't get a response, and each retry would be one more entry to apply."""
        self.config = dataclasses.replace(self.config, patience_seconds=0.1, failover_seconds=30.0)
        replica = self.replica(StandInLog([], newest=10))  # an entry that this node hasn't applied
        await eventually(lambda: replica.barrier.is_behind(0.1))
        replica.current_from = 0.0
        with self.assertRaises(Refused) as found:
            await replica.answer(WRITE)
        self.assertEqual((found.exception.code, len(replica.appender.waiting)), (50305, 0))
        self.assertGreater(replica.current_from, time.monotonic())
        replica.barrier.set_applied(10)
        self.assertEqual((await replica.answer(WRITE))[1].status, 503)  # appended, and not confirmed in time

    async def test_etcd_ends(self) -> None:
        log = StandInLog([])
        replica = self.replica(log)
        await eventually(self.local_reads.exists)
        log.is_followed, log.is_new = False, True
        await eventually(lambda: not self.local_reads.exists())
        self.assertFalse(replica.is_current)

    async def test_another_registry(self) -> None:
        """avroreg is started with another file. Until it has the right one again, the node answers nothing and applies nothing."""
        log = StandInLog(entries(1, 1))
        log.all, later = log.all[:1], log.all
        replica = self.replica(log)
        await eventually(self.local_reads.exists)
        right, self.avroreg.replies = self.avroreg.replies, {}
        self.avroreg.got.clear()
        with self.assertRaisesRegex(Unavailable, "another registry"):
            await replica.answer(READ._replace(may_be_stale=True))
        await eventually(lambda: not self.local_reads.exists())
        log.all, log.is_new = later, False
        with self.assertRaisesRegex(Unavailable, "another registry"):
            await replica.registry.ask(write(1))
        self.avroreg.replies = {b"k0": b"another"}  # another registry that has the key
        with self.assertRaisesRegex(Unavailable, "another registry"):
            await replica.answer(READ._replace(may_be_stale=True))
        self.assertEqual(self.avroreg.got, [])
        self.avroreg.replies = right
        self.assertEqual((await replica.answer(READ._replace(may_be_stale=True)))[1].status, 200)
        await eventually(self.local_reads.exists)

    async def test_a_relay_that_starts_with_another_registry(self) -> None:
        position.save(self.path, Position("c", 10, "d", Witness(write(0), 200, b"1")))
        replica = self.replica(StandInLog(entries(1, 1)))
        await eventually(lambda: "another registry" in replica.troubles.get("registry", ""))
        self.assertEqual((self.avroreg.got, self.local_reads.exists(), replica.health()["status"]), ([], False, "trouble"))
        self.avroreg.replies[b"k0"] = b"1"
        await eventually(lambda: replica.position.revision == 20)
        self.assertEqual(self.avroreg.got, [line(1)])

    async def test_a_skipped_message(self) -> None:
        log = StandInLog(entries(3, 1))
        log.skipped = {10: Skip("slow", "k1", {"n1": "not applied"})}
        replica = self.replica(log)
        await eventually(lambda: "skip" in replica.troubles)
        self.assertEqual(self.avroreg.got, [])
        log.skipped = {10: log.skipped[10].vote("n2", "not applied", {"n1", "n2"})}
        await eventually(lambda: replica.position.revision == 20)
        self.assertEqual((log.skipped[10].decision, self.avroreg.got), (SKIPPED, [line(0), b"PUT /mode HTTP/1.1", line(2), line(3)]))
        self.assertIn(b"\r\nRegistry-Retry-Key: k1\r\n", self.avroreg.heads[1])

    async def test_a_message_that_one_node_has_applied(self) -> None:
        log = StandInLog(entries(1))
        log.skipped = {10: Skip("slow", "k0", {"n1": "not applied"}).vote("n2", APPLIED, {"n1", "n2"})}
        replica = self.replica(log)
        await eventually(lambda: replica.position.revision == 10)
        self.assertEqual((log.skipped[10].decision, self.avroreg.got), (APPLIED, [line(0)]))

    async def test_a_skipped_entry_that_is_no_batch(self) -> None:
        log = StandInLog([Entry(10, b"0", b"nonsense"), *entries(0, 1)[1:]])
        log.skipped = {10: Skip("foreign", "", {}, SKIPPED)}
        replica = self.replica(log)
        await eventually(lambda: replica.position.revision == 20)
        self.assertEqual((replica.broken, self.avroreg.got), (None, [line(0)]))

    async def test_what_clients_see_of_errors(self) -> None:
        replica = self.replica(StandInLog(entries(1)))
        await eventually(lambda: replica.position.revision == 10)
        replica.stop("n2 at 10.0.0.2 answered otherwise")
        with self.assertRaises(Refused) as found:
            await replica.answer(READ)
        self.assertEqual(found.exception.message, "This node is stopped")

    async def test_malformed_writes_are_not_appended(self) -> None:
        replica = self.replica(StandInLog([]))
        for body in (b"", b"zzz", b'{"compatibility":1}', b'{"mode":"READONLY"}'):
            with self.assertRaises(Refused) as found:
                await replica.answer(Request(b"PUT /config", (), body, False, False))
            self.assertEqual((found.exception.code, len(replica.appender.waiting)), (40001, 0))

    async def test_the_key_of_a_request_that_is_no_write(self) -> None:
        replica = self.replica(StandInLog([]))
        for target in (b"GET /config", b"PUT /config/", b"PATCH /mode", b"POST /subjects/s"):
            await replica.answer(Request(target, (b"key",), b"", False, False))
        self.assertEqual(len(self.avroreg.heads), 4)
        self.assertEqual([it for it in self.avroreg.heads if b"\r\nRegistry-Retry-Key: ?\r\n" not in it], [])
