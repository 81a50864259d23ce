"""Operations on the cluster: positions, pauses, trimming, members."""
import asyncio
import time
from typing import Any

from relay import etcd, log
from relay.config import Config
from relay.etcd import Etcd, Json
from relay.faults import Unavailable
from relay.log import Base, Log

REMOVED = 100  # entries in one transaction; etcd allows up to 128 operations


class Failed(Exception):
    """A step of an operation failed, and changed nothing."""


class Cluster:
    def __init__(self, config: Config) -> None:
        self.config, self.etcd = config, Etcd(config.etcd)
        self.log = Log(self.etcd)

    async def status(self) -> None:
        """Prints each node's saved position, and the state of the log."""
        for name, position in sorted((await self.log.positions()).items()):
            print(f"{name}: revision {position['revision']}, digest {position['digest']}")
        base, pause = await self.log.base(), await self.log.value(log.PAUSE)
        print(f"log: {await self.entries()} entries, newest {await self.log.newest()}, trimmed up to {await self.log.trimmed()}")
        for revision, skip in sorted((await self.log.skips()).items()):
            votes = ", ".join(f"{name} {vote}" for name, vote in sorted(skip.votes.items()))
            print(f"revision {revision}: {skip.decision or 'to be skipped, if every node votes for it'} ({skip.reason}) {votes}")
        print(f"began from {f'a file, at revision {base.revision}' if base else 'nothing'}; writes {'paused' if pause else 'go on'}")

    async def entries(self) -> int:
        found = await self.etcd.call("/v3/kv/range", {**etcd.below(log.ENTRIES), "count_only": True})
        return int(found.get("count", "0"))

    async def pause(self, seconds: float) -> None:
        """Stops the writes of all nodes, and waits until each node has applied and saved the whole log.

        The transaction that appends an entry requires that there is no pause. So no entry comes after this one.
        """
        await self.etcd.call("/v3/kv/put", etcd.put(log.PAUSE))
        newest, until = await self.log.newest(), time.monotonic() + seconds
        while behind := [name for name, it in (await self.log.positions()).items() if it["revision"] < newest]:
            if time.monotonic() > until:
                raise Failed(f"writes are paused, but {' and '.join(sorted(behind))} hasn't reached revision {newest}")
            await asyncio.sleep(0.2)
        print(f"writes are paused; every node is at revision {newest}")

    async def resume(self) -> None:
        await self.etcd.call("/v3/kv/deleterange", {"key": etcd.encode(log.PAUSE)})
        print("writes go on")

    async def trim(self) -> None:
        """Removes the entries that every node has applied and saved, and frees their space in this node's etcd."""
        positions = await self.log.positions()
        if not positions:
            raise Failed("no node has published a position")
        upto = min(int(it["revision"]) for it in positions.values())
        await self.record_trimmed(upto)
        count = 0
        while keys := [pair["key"] for pair in await self.etcd.pairs(self.removable(upto), 60)]:
            for first in range(0, len(keys), REMOVED):
                removals = [{"request_delete_range": {"key": it}} for it in keys[first : first + REMOVED]]
                await self.etcd.call("/v3/kv/txn", {"success": removals}, 60)
            count += len(keys)
        print(f"removed {count} entries, up to revision {upto}")
        await self.defragment()

    async def record_trimmed(self, upto: int) -> None:
        """Records up to which revision entries may be removed, before it removes any. The recorded revision never decreases."""
        found = await self.log.value(log.TRIMMED)
        if found and upto < int(found[1]):
            raise Failed(f"a node is at {upto}, and the log was trimmed up to {int(found[1])}: rebuild or forget that node first")
        unchanged = etcd.is_unchanged(log.TRIMMED, found[0] if found else 0)
        record = {"request_put": etcd.put(log.TRIMMED, b"%d" % upto)}
        recorded = await self.etcd.call("/v3/kv/txn", {"compare": [unchanged], "success": [record]})
        if not recorded.get("succeeded"):
            raise Failed("another node trims the log now")

    async def defragment(self) -> None:
        """Drops etcd's history, frees its space in this node's etcd, and ends the alarm of a full quota."""
        revision = (await self.etcd.call("/v3/kv/range", {"key": etcd.encode(log.NEWEST)}))["header"]["revision"]
        try:
            await self.etcd.call("/v3/kv/compaction", {"revision": revision, "physical": True}, 60)
        except Unavailable as fault:
            if "has been compacted" not in str(fault):
                raise
        await self.etcd.call("/v3/maintenance/defragment", {}, 60)
        for alarm in (await self.etcd.call("/v3/maintenance/alarm", {"action": "GET"})).get("alarms", []):
            await self.etcd.call("/v3/maintenance/alarm", {"action": "DEACTIVATE", **alarm})
        size = int((await self.etcd.call("/v3/maintenance/status", {})).get("dbSize", "0"))
        print(f"etcd of this node has {size} bytes")

    @staticmethod
    def removable(upto: int) -> Json:
        """The range of the keys of entries up to a revision, LISTED in one response."""
        return {**etcd.below(log.ENTRIES), "keys_only": True, "max_mod_revision": str(upto), "limit": str(log.LISTED)}

    async def begin_from(self, digest: str) -> Base:
        """Makes the log begin after a file with this digest, if it hasn't begun."""
        begin = {"request_put": etcd.put(log.BASE, digest.encode())}
        empty = [etcd.is_missing(it) for it in (log.BASE, log.NEWEST)]
        await self.etcd.call("/v3/kv/txn", {"compare": empty, "success": [begin]})
        base = await self.log.base()
        if not base:
            raise Failed("this cluster has entries already, so it can't begin from a file")
        if base.digest != digest:
            raise Failed("the other nodes adopted another file: copy the same one to every node")
        return base

    async def forget(self, node: str) -> None:
        """Removes the position of a node that won't come back: trimming doesn't wait for it any more."""
        await self.etcd.call("/v3/kv/deleterange", {"key": etcd.encode(log.NODES + node.encode())})
        print(f"{node} is forgotten; if it comes back, it needs another node's backup")

    async def replace(self, node: str, peer_url: str) -> None:
        """Removes a node's member of etcd and adds a new one in its place."""
        members: list[dict[str, Any]] = (await self.etcd.call("/v3/cluster/member/list", {})).get("members", [])
        for member in members:
            if member.get("name") == node:
                await self.etcd.call("/v3/cluster/member/remove", {"ID": member["ID"]}, 30)
        await self.add_member(peer_url)
        await self.forget(node)
        others = [f"{it['name']}={it['peerURLs'][0]}" for it in members if it.get("name") not in (node, None, "")]
        print("start etcd there, with an empty data folder, by")
        print(f"  --name={node} --initial-cluster-state=existing --initial-cluster={','.join([*others, f'{node}={peer_url}'])}")
        print("then, on that node: avroreg-cluster restore BACKUP, with the backup of another node")

    async def add_member(self, peer_url: str) -> None:
        """Adds a member. etcd rejects a new one for some seconds after another one was lost, so it tries again."""
        for _ in range(30):
            found = (await self.etcd.call("/v3/cluster/member/list", {})).get("members", [])
            if any(peer_url in it.get("peerURLs", []) for it in found):
                return
            try:
                await self.etcd.call("/v3/cluster/member/add", {"peerURLs": [peer_url]}, 10)
            except Unavailable as fault:
                print(f"etcd doesn't add the member yet: {fault}")
                await asyncio.sleep(1)
        raise Failed("etcd doesn't add the member")
