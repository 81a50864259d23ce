"""The digest of all responses of a node's avroreg, and its comparison with the other nodes' digests.

Two nodes at one revision have one digest if their avroregs returned the same response to every message of the log. A digest covers all
earlier ones, so nodes that differed once differ from then on.
"""
import collections
import hashlib
from typing import Any, Mapping

REMEMBERED = 10000  # revisions whose digests a node keeps in memory, to compare with slower nodes


def extend(digest: str, revision: int, message: bytes, status: int, body: bytes) -> str:
    """The digest after one more message and its response."""
    parts = (digest.encode(), b"%d" % revision, message, b"%d" % status, body)
    return hashlib.sha256(b"".join(b"%d:%s" % (len(part), part) for part in parts)).hexdigest()[:32]


class History:
    """The digests that this node had, by revision."""

    def __init__(self) -> None:
        self.digests: collections.OrderedDict[int, str] = collections.OrderedDict()

    def add(self, revision: int, digest: str) -> None:
        self.digests[revision] = digest
        if len(self.digests) > REMEMBERED:
            self.digests.popitem(last=False)

    def contradicting(self, positions: Mapping[str, Mapping[str, Any]], node: str) -> list[str]:
        """The other nodes whose published digest isn't the one that this node had at that revision."""
        return sorted(
            name
            for name, position in positions.items()
            if name != node and self.digests.get(position["revision"], position["digest"]) != position["digest"]
        )


def is_outvoted(contradicting: list[str], nodes: int) -> bool:
    """Whether more than half of the nodes contradict this one."""
    return 2 * len(contradicting) > nodes
