"""Messages of the log that the nodes agreed not to apply, by `avroreg-cluster skip`.

Each node votes while its avroreg is stopped, and then waits for the decision. If no registry has the message, every node applies
a replacement: a write with the same key, which changes nothing. So all registries keep the same response for the key.
"""
import dataclasses
import json

from relay import messages

SKIPPED, APPLIED = "skipped", "applied"
REPLACEMENT = b'{"mode":"skipped"}'  # not a mode, so avroreg keeps 42204


@dataclasses.dataclass(frozen=True)
class Skip:
    """The retry key of the message, empty if the entry is no batch of messages. The votes of the nodes, and their decision."""

    reason: str
    key: str
    votes: dict[str, str]
    decision: str = ""

    def vote(self, node: str, found: str, nodes: set[str]) -> "Skip":
        """With one more vote. The last of the nodes to vote decides."""
        votes = {**self.votes, node: found}
        if self.decision or nodes - votes.keys():
            return dataclasses.replace(self, votes=votes)
        return dataclasses.replace(self, votes=votes, decision=APPLIED if APPLIED in votes.values() else SKIPPED)

    def text(self) -> bytes:
        return json.dumps(dataclasses.asdict(self)).encode()

    def replaced(self, message: bytes) -> bytes:
        """The message that the nodes apply in place of this one."""
        key = messages.key_of(message)
        return messages.message(b"PUT /mode", key, REPLACEMENT) if key == self.key.encode() else message


def parse(text: bytes) -> Skip:
    return Skip(**json.loads(text))
