"""The results of a trial, as a table."""
import bisect
import collections
import dataclasses
from typing import NamedTuple

from trial.clients import Client, Write


class Fault(NamedTuple):
    name: str
    nodes: tuple[str, ...]
    is_at_leader: bool
    began: float
    ended: float
    caught_up: float  # when each node had applied the entries that any node had at the end

    @property
    def seconds_until_equal(self) -> float:
        return self.caught_up - self.ended

    def __str__(self) -> str:
        return f"{self.name}, {' and '.join(self.nodes)}"


@dataclasses.dataclass
class Outcome:
    """The numbers of errors of each kind, and of repeats in the log, which are allowed."""

    losses: int = 0
    duplicates: int = 0
    wrong_responses: int = 0
    out_of_order: int = 0
    differences: int = 0
    repeats: int = 0


def table(began: float, ended: float, faults: list[Fault], clients: list[Client], outcome: Outcome) -> str:
    writes = [it for client in clients for it in client.writes]
    counts = sum((it.counts for it in clients), collections.Counter[str]())
    slowest = max(faults, key=lambda it: it.seconds_until_equal)
    rows = {
        "seconds": f"{ended - began:.0f}",
        "faults": f"{len(faults)}, of them {sum(it.is_at_leader for it in faults)} at etcd's leader",
        "acknowledged writes": len(writes),
        "writes without a response": sum(len(it.unanswered) for it in clients),
        "losses": outcome.losses,
        "duplicates, as versions that the log doesn't give": outcome.duplicates,
        "responses that the log doesn't give": outcome.wrong_responses,
        "writes out of order": outcome.out_of_order,
        "differences between tables": outcome.differences,
        "repeats in the log, each without effect": outcome.repeats,
        "fresh reads, all right": counts["fresh reads"],
        "local reads elsewhere that were stale": counts["stale reads"],
        "longest time without an acknowledged write": longest_gap(began, ended, faults, writes),
        "response times": percentiles_text([it for client in clients for it in client.seconds]),
        "until each node had caught up after a fault": f"at most {slowest.seconds_until_equal:.1f} s ({slowest})",
        "kinds of faults": list_text(collections.Counter(it.name for it in faults)),
        "what clients saw": list_text(counts),
    }
    return "\n".join(["| | |", "|---|---|", *(f"| {name} | {value} |" for name, value in rows.items())])


def longest_gap(began: float, ended: float, faults: list[Fault], writes: list[Write]) -> str:
    """The longest time without an acknowledged write, and the faults that it overlaps."""
    answered = sorted(it.answered for it in writes)
    moments = [began, *answered[bisect.bisect(answered, began) : bisect.bisect(answered, ended)], ended]
    start, end = max(zip(moments, moments[1:]), key=lambda it: it[1] - it[0])
    found = [str(it) for it in faults if it.began < end and it.caught_up > start]
    return f"{end - start:.1f} s ({'; '.join(found) or 'between faults'})"


def percentiles_text(seconds: list[float]) -> str:
    found = sorted(seconds)
    return ", ".join(f"{it} of 100 within {found[len(found) * it // 100] * 1000:.0f} ms" for it in (50, 99))


def list_text(counts: collections.Counter[str]) -> str:
    return "; ".join(f"{name} {count}" for name, count in sorted(counts.items()))
