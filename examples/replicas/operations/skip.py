"""Skips a message of the log on all nodes: one whose check blocks every avroreg, or an entry that no relay wrote.

The command runs on each node. It stops avroreg, looks whether the registry has the message, and votes. A node that has voted
doesn't go past the entry before the decision. If a node has applied the message, all nodes apply it.
"""
from typing import Callable

from operations.cluster import Cluster, Failed
from operations.node import Node
from relay import etcd, log, messages, skips
from relay.config import Config
from relay.log import Entry
from relay.malformed import is_malformed
from relay.skips import APPLIED, SKIPPED, Skip

NOT_APPLIED = "not applied"
Change = Callable[[Skip | None, set[str]], Skip]  # from the record and the nodes


class Skipping:
    def __init__(self, config: Config) -> None:
        self.name, self.cluster, self.node = config.node, Cluster(config), Node(config)

    async def skip(self, revision: int, reason: str) -> None:
        entry = await self.entry(revision)
        try:
            batch = list(messages.split(entry.batch))
        except ValueError:
            await self.record(revision, lambda found, nodes: found or Skip(reason, "", {}, SKIPPED))
            self.node.restart_relay()
            print(f"revision {revision} is no batch of messages: every relay skips it after a restart; run this on each node")
            return
        decided = await self.vote(entry, batch, reason)
        waiting = sorted(set(await self.cluster.log.positions()) - decided.votes.keys())
        if decided.decision == APPLIED:
            raise Failed(f"a registry has the message of revision {revision} already, so every node applies it")
        if not decided.decision:
            print(f"{self.name} has voted, and waits at revision {revision}: run this on {' and '.join(waiting)}")
            return
        print(f"every node skips the message of revision {revision} with the key {decided.key}; a retry gets 42290")

    async def entry(self, revision: int) -> Entry:
        wanted = {"min_mod_revision": str(revision), "max_mod_revision": str(revision)}
        found = await self.cluster.etcd.pairs({**etcd.below(log.ENTRIES), **wanted}, 60)
        if not found:
            raise Failed(f"the log has no entry of revision {revision}")
        return log.entry_of(found[0])

    async def vote(self, entry: Entry, batch: list[bytes], reason: str) -> Skip:
        """Stops this node, and votes by what its registry has."""
        try:
            self.node.stop()
            self.node.merge(self.node.database)
            keys = [messages.key_of(it).decode() for it in batch if not is_malformed(messages.line_of(it), messages.body_of(it))]
            kept = self.node.database.kept(keys)
            if entry.revision not in await self.cluster.log.skips():
                await self.check_reached(entry.revision)
            blocking = next((key for key in keys if key not in kept), "")

            def voted(found: Skip | None, nodes: set[str]) -> Skip:
                if not found and not blocking:
                    raise Failed(f"{self.name} has applied revision {entry.revision}")
                found = found or Skip(reason, blocking, {})
                return found.vote(self.name, APPLIED if found.key in kept else NOT_APPLIED, nodes | {self.name})

            return await self.record(entry.revision, voted)
        finally:
            self.node.start()

    async def check_reached(self, revision: int) -> None:
        """Fails unless this node has applied everything before the entry. Only then its registry shows which message blocks."""
        at = self.node.saved_position().revision
        wanted = {"min_mod_revision": str(at + 1), "max_mod_revision": str(revision), "keys_only": True}
        found = await self.cluster.etcd.pairs({**etcd.below(log.ENTRIES), **wanted}, 60)
        if [int(it["mod_revision"]) for it in found] != [revision]:
            raise Failed(f"{self.name} is at revision {at}, so revision {revision} isn't the one that it applies now")

    async def record(self, revision: int, change: Change) -> Skip:
        """Changes the record of an entry in one step."""
        key = log.SKIPS + b"%d" % revision
        while True:
            found = await self.cluster.log.value(key)
            new = change(skips.parse(found[1]) if found else None, set(await self.cluster.log.positions()))
            unchanged = etcd.is_unchanged(key, found[0] if found else 0)
            done = await self.cluster.etcd.call("/v3/kv/txn", {"compare": [unchanged], "success": [{"request_put": etcd.put(key, new.text())}]})
            if done.get("succeeded"):
                return new
