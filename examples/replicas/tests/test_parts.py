"""Digest, position, configuration, metrics, retries, barrier."""
import asyncio
import pathlib
import tempfile
import unittest
from unittest import mock

from relay import config, digest, messages, position, replies, witness
from relay.barrier import Barrier
from relay.faults import Misconfigured, Unavailable
from relay.metrics import Metrics
from relay.http1 import Response
from relay.position import Position
from relay.replies import Replies
from relay.witness import Witness
from tests import eventually

RELAY_TOML = pathlib.Path(__file__).parent.parent / "relay.toml"


def at(revision: int, seen: str) -> dict[str, object]:
    return {"revision": revision, "digest": seen}


class Digest(unittest.TestCase):
    def test_each_part_counts(self) -> None:
        wanted = digest.extend("d", 1, b"message", 200, b"body")
        others = [("e", 1, b"message", 200, b"body"), ("d", 2, b"message", 200, b"body"), ("d", 1, b"messageb", 200, b"ody"),
                  ("d", 1, b"message", 201, b"body"), ("d", 1, b"message", 200, b"bodi")]  # fmt: skip
        self.assertEqual(wanted, digest.extend("d", 1, b"message", 200, b"body"))
        self.assertEqual(len({wanted, *(digest.extend(*other) for other in others)}), 6)

    def test_who_contradicts(self) -> None:
        history = digest.History()
        history.add(5, "five")
        history.add(9, "nine")
        agreeing = {"n1": at(9, "x"), "n2": at(5, "five"), "n3": at(7, "seven")}
        self.assertEqual(history.contradicting(agreeing, "n1"), [])
        self.assertEqual(history.contradicting({"n2": at(5, "other"), "n3": at(9, "another")}, "n1"), ["n2", "n3"])

    def test_it_forgets_old_revisions(self) -> None:
        history = digest.History()
        for revision in range(digest.REMEMBERED + 5):
            history.add(revision, "d")
        self.assertEqual(len(history.digests), digest.REMEMBERED)
        self.assertEqual(history.contradicting({"n2": {"revision": 0, "digest": "x"}}, "n1"), [])

    def test_a_majority_outvotes(self) -> None:
        self.assertFalse(digest.is_outvoted(["n2"], 3))
        self.assertTrue(digest.is_outvoted(["n2", "n3"], 3))
        self.assertFalse(digest.is_outvoted(["n2"], 2))
        self.assertFalse(digest.is_outvoted([], 1))


class PositionFile(unittest.TestCase):
    def test_saved_and_loaded(self) -> None:
        with tempfile.TemporaryDirectory() as folder:
            path = pathlib.Path(folder) / "position"
            self.assertEqual(position.load(path), Position())
            for proof in (None, Witness(messages.message(b"PUT /config", b"k", b"\xff"), 200, b"\xfe")):
                position.save(path, Position("7", 12, "d", proof))
                self.assertEqual(position.load(path), Position("7", 12, "d", proof))
            self.assertEqual(path.stat().st_mode & 0o777, 0o600)  # it has a retry key
            self.assertEqual([it.name for it in pathlib.Path(folder).iterdir()], ["position"])

    def test_what_is_no_position(self) -> None:
        with tempfile.TemporaryDirectory() as folder:
            path = pathlib.Path(folder) / "position"
            for text in ("", "[]", "7", '{"revision":"7"}', '{"other":7}', '{"revision":7', '{"witness":7}', '{"witness":{"message":"eA==","status":200,"body":""}}'):
                path.write_text(text)
                with self.assertRaises(Misconfigured, msg=text):
                    position.load(path)


class Proof(unittest.TestCase):
    def test_which_responses_avroreg_keeps(self) -> None:
        def response(status: int, code: int) -> Response:
            return Response(status, b"", b'{"error_code":%d}' % code)

        message, first = messages.message(b"PUT /config", b"k", b"{}"), Witness(b"first", 200, b"")
        for found in (Response(200, b"", b"[]"), response(404, 40401), response(409, 409), response(422, 42201), response(422, 42205)):
            self.assertEqual(witness.after(message, found, first), Witness(message, found.status, found.body))
        for found in (response(400, 40001), response(404, 404), response(405, 405), response(422, 42290)):
            self.assertEqual(witness.after(message, found, first), first)


class Configuration(unittest.TestCase):
    def load(self, text: str) -> config.Config:
        with tempfile.TemporaryDirectory() as folder:
            path = pathlib.Path(folder) / "relay.toml"
            path.write_text(text)
            return config.load(path)

    def test_the_repository_file(self) -> None:
        found = config.load(RELAY_TOML)
        self.assertEqual((found.node, found.listen.port, found.services.stop_relay[0]), ("n1", 8080, "systemctl"))

    def test_faults(self) -> None:
        text = RELAY_TOML.read_text()
        for old, new in (('node = "n1"', ""), ('node = "n1"', 'node = "a/b"'), ('node = "n1"', "node = 1 2"), ('"plain"\n', '"xml"\n'),
                         ("127.0.0.1:8081", "127.0.0.1"), ("127.0.0.1:8081", "127.0.0.1:99999"), ("idle_seconds", "idle"),
                         ("stop_relay", "stop_all"), ("512", '"many"')):  # fmt: skip
            with self.assertRaises(Misconfigured, msg=new):
                self.load(text.replace(old, new, 1))


class MetricsText(unittest.TestCase):
    def test_text(self) -> None:
        metrics = Metrics()
        metrics.count_response("write", 200, 0.0)
        text = metrics.text({"revision": 7}, {"etcd": "away"})
        for line in ("avroreg_relay_revision 7", 'avroreg_relay_trouble{part="etcd"} 1', 'avroreg_relay_seconds_count{kind="write"} 1',
                     'avroreg_relay_responses_total{kind="write",status="200"} 1', "# TYPE avroreg_relay_seconds histogram"):  # fmt: skip
            self.assertIn(line, text.splitlines())


class Retries(unittest.TestCase):
    @mock.patch.object(replies, "REMEMBERED", 2)
    def test_the_last_responses_that_avroreg_keeps(self) -> None:
        found, kept = Replies(), Response(200, b"", b"{}")
        for message in (b"1", b"2", b"3"):
            found.add(message, kept)
        for code in (40001, 42290):
            found.add(b"4", Response(422, b"", b'{"error_code":%d}' % code))
        self.assertEqual([found.find(it) for it in (b"1", b"2", b"3", b"4")], [None, kept, kept, None])
        found.add(b"4", Response(422, b"", b'{"error_code":42201}'))
        self.assertEqual([found.find(it) is None for it in (b"2", b"3", b"4")], [True, False, False])


class Barriers(unittest.IsolatedAsyncioTestCase):
    def setUp(self) -> None:
        self.newest, self.queries, self.faults = 0, 0, 0

    async def ask(self) -> int:
        self.queries += 1
        found = self.newest
        await asyncio.sleep(0.01)
        if self.faults:
            self.faults -= 1
            raise Unavailable("away")
        return found

    async def test_it_waits_for_the_newest_entry(self) -> None:
        barrier, self.newest = Barrier(self.ask, 5), 7
        waiting = asyncio.create_task(barrier.wait(30))
        await eventually(lambda: bool(barrier.waiting))
        barrier.set_applied(6)
        later = asyncio.create_task(barrier.wait(30))
        await eventually(lambda: len(barrier.waiting) == 2)
        await asyncio.sleep(0)
        self.assertFalse(waiting.done())
        self.assertFalse(later.done())
        barrier.set_applied(7)
        await asyncio.gather(waiting, later)

    async def test_reads_share_a_query_that_begins_after_each(self) -> None:
        barrier = Barrier(self.ask, 5)
        first = asyncio.create_task(barrier.wait(30))
        await eventually(lambda: self.queries == 1)
        self.newest = 9  # acknowledged after the first query began: the second query must return it
        later = [asyncio.create_task(barrier.wait(1)) for _ in range(10)]
        await first
        found = await asyncio.gather(*later, return_exceptions=True)
        self.assertTrue(all(isinstance(it, Unavailable) for it in found), found)
        self.assertEqual(self.queries, 2)

    async def test_it_is_behind_once_an_entry_is_late(self) -> None:
        barrier, self.newest = Barrier(self.ask, 5), 7
        for newest in (7, 9):
            self.newest = newest
            with self.assertRaises(Unavailable):
                await barrier.wait(0.05)
        self.assertEqual((barrier.is_behind(0), barrier.is_behind(30)), (True, False))
        since = barrier.awaited[1]
        barrier.set_applied(6)
        self.assertTrue(barrier.is_behind(0))
        barrier.set_applied(7)
        self.assertFalse(barrier.is_behind(0))
        with self.assertRaises(Unavailable):
            await barrier.wait(0.05)
        self.assertEqual(barrier.awaited[0], 9)
        self.assertGreater(barrier.awaited[1], since)
        self.assertTrue(barrier.is_behind(0))

    async def test_it_repeats_and_gives_up(self) -> None:
        barrier, self.faults = Barrier(self.ask, 5), 2
        await barrier.wait(30)
        self.faults = 1000
        with self.assertRaises(Unavailable):
            await barrier.wait(0.05)
