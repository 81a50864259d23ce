"""Batches: which writes they have, when an append is repeated, and when it ends."""
import asyncio
import pathlib
import unittest

from relay.appender import Appender
from relay.faults import Refused, Unavailable
from relay.http1 import Response
from relay.log import Entry, Log
from relay.etcd import Etcd
from tests import eventually

OK = Response(200, b"", b"{}")


class StandInLog(Log):
    """A log in memory, whose first calls may fail before or after they append."""

    def __init__(self) -> None:
        super().__init__(Etcd(pathlib.Path("missing")))
        self.batches: dict[bytes, bytes] = {}
        self.calls: list[bytes] = []
        self.failures: list[str] = []

    async def append(self, name: bytes, batch: bytes) -> None:
        self.calls.append(name)
        await asyncio.sleep(0.005)
        failure = self.failures.pop(0) if self.failures else ""
        if failure == "paused":
            raise Refused(50304, "Writes are paused")
        if failure != "before":
            self.batches.setdefault(name, batch)
        if failure:
            raise Unavailable(failure)


class Appending(unittest.IsolatedAsyncioTestCase):
    async def asyncSetUp(self) -> None:
        self.log = StandInLog()
        self.appender = Appender(self.log, 3.0, 3, 100)
        self.work = asyncio.create_task(self.appender.run())

    async def asyncTearDown(self) -> None:
        self.work.cancel()

    def answer_all(self) -> None:
        for at, (name, batch) in enumerate(self.log.batches.items()):
            count = len(self.appender.appended.get(name, []))
            self.appender.answer(Entry(at, name, batch), [OK._replace(body=b"%d.%d" % (at, it)) for it in range(count)])

    async def test_writes_that_wait_go_together_in_order(self) -> None:
        writes = [asyncio.create_task(self.appender.response_to(b"%d" % it)) for it in range(5)]
        await eventually(lambda: len(self.log.batches) == 2)
        self.assertEqual(list(self.log.batches.values()), [b"012", b"34"])
        self.answer_all()
        self.assertEqual([(await it).body for it in writes], [b"0.0", b"0.1", b"0.2", b"1.0", b"1.1"])

    async def test_a_batch_has_so_many_bytes(self) -> None:
        writes = [asyncio.create_task(self.appender.response_to(bytes([65 + it]) * size)) for it, size in enumerate((60, 41, 300, 1))]
        await eventually(lambda: len(self.log.batches) == 4)
        self.assertEqual([len(it) for it in self.log.batches.values()], [60, 41, 300, 1])
        self.answer_all()
        await asyncio.gather(*writes)

    async def test_a_batch_is_repeated_under_its_name(self) -> None:
        self.log.failures = ["before", "after"]
        write = asyncio.create_task(self.appender.response_to(b"w"))
        await eventually(lambda: len(self.log.calls) == 3 and not self.log.failures)
        await asyncio.sleep(0.1)
        self.assertEqual(len(set(self.log.calls)), 1)
        self.assertEqual(list(self.log.batches.values()), [b"w"])
        self.answer_all()
        self.assertEqual(await write, OK._replace(body=b"0.0"))

    async def test_a_write_that_nobody_answers(self) -> None:
        with self.assertRaises(Unavailable):
            await self.appender.response_to(b"w")
        await eventually(lambda: not self.appender.appended)

    async def test_what_nobody_waits_for_is_not_appended(self) -> None:
        self.log.failures = ["before"] * 1000
        first = asyncio.create_task(self.appender.response_to(b"first"))
        await asyncio.sleep(0.01)
        second = asyncio.create_task(self.appender.response_to(b"second"))
        await asyncio.sleep(0)
        second.cancel()
        with self.assertRaises(Unavailable):
            await first
        third = asyncio.create_task(self.appender.response_to(b"third"))
        await eventually(lambda: len(set(self.log.calls)) == 2)
        self.log.failures = []
        await eventually(lambda: bool(self.log.batches))
        self.assertEqual(list(self.log.batches.values()), [b"third"])
        self.answer_all()
        await third

    async def test_paused(self) -> None:
        self.log.failures = ["paused", "before", "paused"]
        with self.assertRaises(Refused) as found:
            await self.appender.response_to(b"w")
        self.assertEqual(found.exception.code, 50304)
        self.assertEqual(self.log.batches, {})
        with self.assertRaises(Unavailable):  # its first attempt may still be in progress
            await self.appender.response_to(b"w")
