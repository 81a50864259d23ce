"""Counters, and their text for Prometheus."""
import collections
import time
from typing import Mapping

PREFIX = "avroreg_relay_"
BOUNDS = (0.001, 0.002, 0.005, 0.01, 0.02, 0.05, 0.1, 0.2, 0.5, 1.0, 2.0, 5.0, 10.0)
HELP = {
    "applied_total": ("counter", "Messages of the log that avroreg has answered, including repeats."),
    "revision": ("gauge", "The revision of the last entry that this node has applied."),
    "saved_revision": ("gauge", "The revision in the position file."),
    "waiting_writes": ("gauge", "Writes that aren't in the log yet."),
    "stopped": ("gauge", "1 if this node has stopped because it differs from the others."),
    "trouble": ("gauge", "1 for each part that doesn't work now."),
    "responses_total": ("counter", "Responses to clients, by kind and status."),
    "seconds": ("histogram", "Seconds from a request to its response, by kind."),
}


class Metrics:
    def __init__(self) -> None:
        self.applied = 0
        self.responses: collections.Counter[tuple[str, int]] = collections.Counter()
        self.seconds: dict[str, list[float]] = {}
        self.buckets: dict[str, list[int]] = {}

    def count_response(self, kind: str, status: int, began: float) -> None:
        seconds = time.monotonic() - began
        self.responses[kind, status] += 1
        self.seconds.setdefault(kind, [0.0, 0.0])
        self.seconds[kind][0] += seconds
        self.seconds[kind][1] += 1
        buckets = self.buckets.setdefault(kind, [0] * len(BOUNDS))
        for at, bound in enumerate(BOUNDS):
            buckets[at] += seconds <= bound

    def text(self, gauges: Mapping[str, float], troubles: Mapping[str, str]) -> str:
        samples: dict[str, list[str]] = {name: [f"{PREFIX}{name} {value:g}"] for name, value in gauges.items()}
        samples["applied_total"] = [f"{PREFIX}applied_total {self.applied}"]
        samples["trouble"] = [f'{PREFIX}trouble{{part="{part}"}} 1' for part in sorted(troubles)]
        samples["responses_total"] = [
            f'{PREFIX}responses_total{{kind="{kind}",status="{status}"}} {count}'
            for (kind, status), count in sorted(self.responses.items())
        ]
        samples["seconds"] = [line for kind in sorted(self.seconds) for line in self.histogram(kind)]
        lines = []
        for name, (kind, help_text) in HELP.items():
            lines += [f"# HELP {PREFIX}{name} {help_text}", f"# TYPE {PREFIX}{name} {kind}", *samples.get(name, [])]
        return "\n".join(lines) + "\n"

    def histogram(self, kind: str) -> list[str]:
        total, count = self.seconds[kind]
        label = f'kind="{kind}"'
        lines = [
            f'{PREFIX}seconds_bucket{{{label},le="{bound:g}"}} {found}' for bound, found in zip(BOUNDS, self.buckets[kind])
        ]
        return [
            *lines,
            f'{PREFIX}seconds_bucket{{{label},le="+Inf"}} {count:g}',
            f"{PREFIX}seconds_sum{{{label}}} {total:.6f}",
            f"{PREFIX}seconds_count{{{label}}} {count:g}",
        ]
