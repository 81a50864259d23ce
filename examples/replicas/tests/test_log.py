"""The log over a stand-in for etcd: order, compaction, trimming, repeated appends."""
import asyncio
import json
import pathlib
import unittest
from typing import Any, AsyncGenerator, Callable
from unittest import mock

from relay import log
from relay.etcd import Etcd, Json, decode, encode
from relay.faults import Broken, Refused
from relay.log import Entry, Log


class StandIn(Etcd):
    """Keys and values in memory, with the requests of the log."""

    def __init__(self) -> None:
        super().__init__(pathlib.Path("missing"))
        self.revision, self.compacted = 1, 0
        self.kept: dict[str, tuple[int, str]] = {}
        self.calls: list[Json] = []
        self.before_call: Callable[[], None] = lambda: None

    def put(self, key: bytes, value: bytes = b"") -> None:
        self.kept[encode(key)] = (self.revision, encode(value))

    def append(self, *names: bytes) -> None:
        for name in names:
            self.revision += 1
            self.put(log.ENTRIES + name, b"batch " + name)
            self.put(log.NEWEST)

    async def call(self, path: str, document: Json, seconds: float = 4.0) -> Json:
        self.before_call()
        self.calls.append(document)
        header = {"revision": str(self.revision)}
        if path == "/v3/kv/range":
            return {"header": header, **self.range(document)}
        succeeded = all(it["key"] not in self.kept for it in document.get("compare", []))
        if succeeded and any("request_put" in it for it in document["success"]):
            self.revision += 1
        responses = [self.operation(it) for it in document["success" if succeeded else "failure"]]
        return {"header": header, "responses": responses, **({"succeeded": True} if succeeded else {})}

    def operation(self, operation: Json) -> Json:
        if "request_put" in operation:
            self.kept[operation["request_put"]["key"]] = (self.revision, operation["request_put"]["value"])
            return {"response_put": {}}
        return {"response_range": self.range(operation["request_range"])}

    def range(self, wanted: Json) -> Json:
        first, end = decode(wanted["key"]), decode(wanted.get("range_end", encode(decode(wanted["key"]) + b"\0")))
        found = [(revision, key) for key, (revision, _) in self.kept.items() if first <= decode(key) < end]
        found = sorted(it for it in found if it[0] >= int(wanted.get("min_mod_revision", "0")))
        chosen = found[: int(wanted.get("limit", "0")) or None]
        pairs = [
            {"key": key, "mod_revision": str(revision), **({} if wanted.get("keys_only") else {"value": self.kept[key][1]})}
            for revision, key in chosen
        ]
        more = {"more": True} if len(chosen) < len(found) else {}
        return {**({"kvs": pairs} if pairs else {}), **more, **({"count": str(len(found))} if found else {})}

    async def lines(self, path: str, document: Json) -> AsyncGenerator[bytes, None]:
        start = int(document["create_request"]["start_revision"])
        if start <= self.compacted:
            yield json.dumps({"result": {"compact_revision": str(self.compacted), "canceled": True}}).encode()
            return
        for revision, key in sorted((it[0], key) for key, it in self.kept.items() if decode(key).startswith(log.ENTRIES)):
            if revision >= start:
                pair: Any = {"key": key, "mod_revision": str(revision), "value": self.kept[key][1]}
                yield json.dumps({"result": {"events": [{"kv": pair}]}}).encode()
        await asyncio.sleep(1000)


NAMES = [b"%c" % it for it in b"zyxwvutsrq"]  # their order differs from the log's


class Entries(unittest.IsolatedAsyncioTestCase):
    def setUp(self) -> None:
        self.etcd = StandIn()
        self.log = Log(self.etcd)
        for name, value in (("LISTED", 3), ("READ", 2)):
            patch = mock.patch.object(log, name, value)
            patch.start()
            self.addCleanup(patch.stop)

    async def first(self, count: int, after: int = 0) -> list[Entry]:
        found: list[Entry] = []
        async with asyncio.timeout(30):
            async for entry in self.log.entries(after):
                found.append(entry)
                if len(found) == count:
                    break
        return found

    def wanted(self, *numbers: int) -> list[Entry]:
        return [Entry(at + 2, NAMES[at], b"batch " + NAMES[at]) for at in numbers]

    async def test_all_are_watched(self) -> None:
        self.etcd.append(*NAMES)
        self.assertEqual(await self.first(10), self.wanted(*range(10)))
        self.assertEqual(self.etcd.calls, [])

    async def test_those_before_a_compaction_are_listed_and_read(self) -> None:
        self.etcd.append(*NAMES)
        for compacted in range(1, 12):
            for after in range(0, 11):
                self.etcd.compacted = compacted
                left = range(max(0, after - 1), 10)
                self.assertEqual(await self.first(len(left), after), self.wanted(*left), (compacted, after))

    async def test_a_node_that_needs_trimmed_entries(self) -> None:
        self.etcd.append(*NAMES)
        self.etcd.put(log.TRIMMED, b"6")
        self.etcd.compacted = self.etcd.revision
        self.assertEqual(await self.first(5, 6), self.wanted(5, 6, 7, 8, 9))
        with self.assertRaisesRegex(Broken, "trimmed up to 6, and this node is at 5"):
            await self.first(5, 5)

    async def test_entries_that_are_trimmed_while_they_are_read(self) -> None:
        for at_call in range(2, 9):
            with self.subTest(at_call):
                self.setUp()
                self.etcd.append(*NAMES)
                self.etcd.compacted = self.etcd.revision

                def trim(at_call: int = at_call) -> None:
                    if len(self.etcd.calls) == at_call:
                        self.etcd.put(log.TRIMMED, b"11")
                        for name in NAMES:
                            del self.etcd.kept[encode(log.ENTRIES + name)]

                self.etcd.before_call = trim
                found: list[bytes] = []
                with self.assertRaisesRegex(Broken, "trimmed up to 11"):
                    async for entry in self.log.entries(0):
                        found.append(entry.name)
                self.assertEqual(found, NAMES[: len(found)])

    async def test_an_entry_that_is_missing_for_no_reason(self) -> None:
        self.etcd.append(*NAMES)
        self.etcd.compacted = self.etcd.revision

        def remove() -> None:
            if len(self.etcd.calls) == 2:
                del self.etcd.kept[encode(log.ENTRIES + NAMES[1])]

        self.etcd.before_call = remove
        with self.assertRaisesRegex(Broken, "not by trimming"):
            await self.first(10)


class Writing(unittest.IsolatedAsyncioTestCase):
    def setUp(self) -> None:
        self.etcd = StandIn()
        self.log = Log(self.etcd)

    async def test_an_entry_is_appended_once(self) -> None:
        await self.log.append(b"a", b"batch")
        first = dict(self.etcd.kept)
        await self.log.append(b"a", b"batch")
        self.assertEqual(self.etcd.kept, first)
        self.assertEqual(await self.log.newest(), 2)
        await self.log.append(b"b", b"batch")
        self.assertEqual(await self.log.newest(), 3)

    async def test_nothing_is_appended_in_a_pause(self) -> None:
        await self.log.append(b"a", b"batch")
        self.etcd.put(log.PAUSE)
        await self.log.append(b"a", b"batch")  # it is in the log already
        with self.assertRaises(Refused):
            await self.log.append(b"b", b"batch")

    async def test_all_nodes_see_one_name(self) -> None:
        name = await self.log.name()
        self.assertEqual((len(name), await Log(self.etcd).name()), (16, name))
