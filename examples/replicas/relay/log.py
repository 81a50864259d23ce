"""The log: entries in one order for all nodes, each appended once.

An entry is a batch of messages. It has its own key in etcd, which is written once. So its revision is its position in the
log, and etcd's compaction loses no entry. Only trimming removes entries. It first records up to which revision.
"""
import contextlib
import json
import secrets
from typing import Any, AsyncGenerator, NamedTuple

from relay import etcd, messages, skips
from relay.etcd import Etcd, Json
from relay.faults import Broken, Compacted, Refused, Unavailable
from relay.skips import Skip

ENTRIES = b"avroreg/log/"
NAME = b"avroreg/name"  # the random name of this log. A new etcd of the same members has the old one's cluster id
NEWEST = b"avroreg/newest"  # written in the transaction that appends an entry
TRIMMED = b"avroreg/trimmed"  # every entry up to this revision may be gone
BASE = b"avroreg/base"  # the digest of the file from which a cluster began; missing if it began from nothing
PAUSE = b"avroreg/pause"  # while this key exists, nothing is appended
NODES = b"avroreg/node/"
SKIPS = b"avroreg/skip/"  # by revision: what the nodes agreed not to apply

LISTED = 10000  # keys in one response
READ = 16  # entries in one response: an entry has at most about 1 MiB


class Entry(NamedTuple):
    revision: int
    name: bytes
    batch: bytes

    def messages(self) -> list[bytes]:
        try:
            return list(messages.split(self.batch))
        except ValueError as fault:
            raise Broken(f"revision {self.revision} of the log is no batch of messages: avroreg-cluster skip {self.revision}") from fault


class Base(NamedTuple):
    revision: int
    digest: str


def entry_of(pair: Json) -> Entry:
    return Entry(int(pair["mod_revision"]), etcd.decode(pair["key"])[len(ENTRIES) :], etcd.decode(pair["value"]))


class Log:
    def __init__(self, member: Etcd) -> None:
        self.etcd = member
        self.is_followed = False

    async def append(self, name: bytes, batch: bytes) -> None:
        """Appends an entry under a name of its own. After `Unavailable` the caller repeats it: the log gets the entry once.

        If the leader has failed, a member loses its request to it, and reports this only after seven seconds. So this call
        waits less, and its caller repeats it.
        """
        key = ENTRIES + name
        found = await self.etcd.call(
            "/v3/kv/txn",
            {
                "compare": [etcd.is_missing(key), etcd.is_missing(PAUSE)],
                "success": [{"request_put": etcd.put(key, batch)}, {"request_put": etcd.put(NEWEST)}],
                "failure": [{"request_range": {"key": etcd.encode(key), "count_only": True}}],
            },
            etcd.SOON,
        )
        is_appended = found.get("succeeded") or int(found["responses"][0]["response_range"].get("count", "0"))
        if not is_appended:
            raise Refused(50304, "Writes are paused")

    async def newest(self) -> int:
        """The revision of the newest entry on a majority of etcd's members."""
        found = await self.etcd.pairs({"key": etcd.encode(NEWEST)}, etcd.SOON)
        return max((int(pair["mod_revision"]) for pair in found), default=0)

    async def entries(self, after: int) -> AsyncGenerator[Entry, None]:
        """The entries after a revision, in order and endlessly."""
        start = after + 1
        while True:
            try:
                async with contextlib.aclosing(self.watch(start)) as watched:
                    async for entry in watched:
                        after = entry.revision
                        yield entry
            except Compacted:
                found = await self.list_keys(after)
                await self.check_trimmed(after)
                names = found.get("kvs", [])
                for first in range(0, len(names), READ):
                    for entry in await self.read(names[first : first + READ], after):
                        after = entry.revision
                        yield entry
                start = 1 + (after if found.get("more") else int(found["header"]["revision"]))

    async def list_keys(self, after: int) -> Json:
        """The keys of the first entries after a revision, in order, without their values.

        etcd reads and sorts all entries for each such request, even if it returns few. So this one returns many.
        """
        wanted = {"min_mod_revision": str(after + 1), "sort_order": "ASCEND", "sort_target": "MOD", "limit": str(LISTED), "keys_only": True}
        return await self.etcd.call("/v3/kv/range", {**etcd.below(ENTRIES), **wanted}, 60)

    async def read(self, names: list[Json], after: int) -> list[Entry]:
        """The entries of these keys, which are after a revision. Fails if one was removed."""
        found = await self.etcd.call("/v3/kv/txn", {"success": [{"request_range": {"key": it["key"]}} for it in names]}, 60)
        pairs = [pair for it in found["responses"] for pair in it["response_range"].get("kvs", [])]
        if len(pairs) < len(names):
            await self.check_trimmed(after)
            raise Broken("an entry of the log was removed, and not by trimming")
        return [entry_of(pair) for pair in pairs]

    async def check_trimmed(self, after: int) -> None:
        """Fails if trimming may have removed an entry after a revision. Trimming records its last revision before it removes an entry."""
        trimmed = await self.trimmed()
        if after < trimmed:
            raise Broken(f"the log was trimmed up to {trimmed}, and this node is at {after}: restore another node's backup")

    async def watch(self, start: int) -> AsyncGenerator[Entry, None]:
        watch = {**etcd.below(ENTRIES), "start_revision": str(start), "filters": ["NODELETE"], "fragment": True}
        try:
            async with contextlib.aclosing(self.etcd.lines("/v3/watch", {"create_request": watch})) as lines:
                async for line in lines:
                    found = json.loads(line).get("result", {"canceled": True})
                    if "compact_revision" in found:
                        raise Compacted
                    if found.get("canceled"):
                        raise Unavailable(f"etcd: {line[:200]!r}")
                    self.is_followed = True
                    for event in found.get("events", []):
                        yield entry_of(event["kv"])
        finally:
            self.is_followed = False
        raise Unavailable("etcd: the watch ended")

    async def value(self, key: bytes) -> tuple[int, bytes] | None:
        """The revision and the value of a key."""
        found = await self.etcd.pairs({"key": etcd.encode(key)})
        return (int(found[0]["mod_revision"]), etcd.decode(found[0].get("value", ""))) if found else None

    async def name(self) -> str:
        """The name of this log, which no other log has. The first call creates it."""
        new = secrets.token_hex(8)
        found = await self.etcd.call(
            "/v3/kv/txn",
            {
                "compare": [etcd.is_missing(NAME)],
                "success": [{"request_put": etcd.put(NAME, new.encode())}],
                "failure": [{"request_range": {"key": etcd.encode(NAME)}}],
            },
        )
        return new if found.get("succeeded") else etcd.decode(found["responses"][0]["response_range"]["kvs"][0]["value"]).decode()

    async def trimmed(self) -> int:
        found = await self.value(TRIMMED)
        return int(found[1]) if found else 0

    async def base(self) -> Base | None:
        found = await self.value(BASE)
        return Base(found[0], found[1].decode()) if found else None

    async def publish(self, node: str, revision: int, digest: str) -> None:
        """Publishes a position that this node has saved on its disk."""
        value = json.dumps({"revision": revision, "digest": digest}).encode()
        found = await self.etcd.call("/v3/kv/put", etcd.put(NODES + node.encode(), value))
        if int(found["header"]["revision"]) < revision:
            raise Broken("etcd is older than this node: it was restored from a copy")

    async def skips(self) -> dict[int, Skip]:
        """What the nodes skip, or have begun to agree on, by revision."""
        found = await self.etcd.pairs(etcd.below(SKIPS))
        return {int(etcd.decode(pair["key"])[len(SKIPS) :]): skips.parse(etcd.decode(pair["value"])) for pair in found}

    async def positions(self) -> dict[str, dict[str, Any]]:
        """The published position of each node: its revision and its digest."""
        found = await self.etcd.pairs(etcd.below(NODES))
        return {etcd.decode(pair["key"])[len(NODES) :].decode(): json.loads(etcd.decode(pair["value"])) for pair in found}
