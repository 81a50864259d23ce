#!/usr/bin/env python3
"""Three nodes in network namespaces, clients and faults. The trial compares the acknowledged writes with two folds of the log, and
with the tables of the nodes. trial.sh runs it as root.

    trial.py PROGRAM [--seconds N] [--rate R] [--seed N] [--relay FILE]

The status is 0 if nothing was lost, nothing was applied twice, and no two nodes differ.
"""
import argparse
import json
import os
import pathlib
import random
import shutil
import signal
import subprocess
import sys
import tempfile
import time

HERE = pathlib.Path(__file__).resolve().parent.parent
sys.path.insert(0, str(HERE))

from trial import compare  # noqa: E402
from trial.clients import FAULTS, Client, ask  # noqa: E402
from trial.faults import kinds_of_faults  # noqa: E402
from trial.local import ETCD, SECONDS  # noqa: E402
from trial.probes import Probe, healthy_spans, longest_gap, majority_spans  # noqa: E402
from trial.report import Fault, Outcome, table  # noqa: E402
from trial.spaces import SpaceCluster, SpaceNode  # noqa: E402

GAP_SECONDS = 30.0  # the longest healthy time without an acknowledged write


class Trial:
    def __init__(self, options: argparse.Namespace, folder: pathlib.Path) -> None:
        self.options, self.folder, self.random = options, folder, random.Random(options.seed)
        self.program = options.program.resolve()
        self.cluster = SpaceCluster(folder / "cluster", options.relay.resolve())
        self.nodes = list(self.cluster.spaces.values())
        self.clients: list[Client] = []
        self.wrong: list[str] = []
        self.faults: list[Fault] = []
        self.outcome = Outcome()

    def print_line(self, line: str) -> None:
        print(line, flush=True)

    def check(self, condition: object, text: str) -> None:
        self.print_line(f"{'ok   ' if condition else 'WRONG'} {text}")
        if not condition:
            self.wrong.append(text)

    # --- Faults

    def make_faults(self, seconds: float) -> None:
        """Makes one fault after the other, usually at one node, until the time is over and each kind has occurred."""
        kinds, names = kinds_of_faults(self.nodes), list[str]()
        until, is_first = time.monotonic() + seconds, True
        while time.monotonic() < until or (names and is_first):
            if not names:
                is_first = not self.faults
                names = self.random.sample(list(kinds), len(kinds))
            name = names.pop()
            leader, chosen = self.cluster.leader(), self.random.sample(self.nodes, 2 if self.random.random() < 0.1 else 1)
            if leader and self.random.random() < 0.4:
                chosen = [leader]
            began = time.monotonic()
            for node in chosen:
                kinds[name][0](node)
            time.sleep(self.random.uniform(0.5, 5))
            for node in chosen:
                kinds[name][1](node)
            ended = time.monotonic()
            self.wait_until_applied()
            self.faults.append(Fault(name, tuple(it.name for it in chosen), leader in chosen, began, ended, time.monotonic()))
            self.report_progress()
            time.sleep(self.random.uniform(0.2, 1.5))

    def report_progress(self) -> None:
        if len(self.faults) % 50 == 0:
            self.print_line(f"      {len(self.faults)} faults, {sum(len(it.writes) for it in self.clients)} acknowledged writes")

    # --- Waiting

    def wait_until_applied(self, seconds: float = 900) -> None:
        """Waits until each node has applied the entries that any node had applied at the call."""
        until, newest = time.monotonic() + seconds, None
        while True:
            found = [it.health() for it in self.nodes]
            revisions = [int(str(it.get("revision", -1))) for it in found]
            if any(it.get("status") == "stopped" for it in found):
                self.check(False, f"no node stops: {[it.get('reasons') for it in found]}")
                raise TimeoutError("a node has stopped")
            newest = max(revisions) if newest is None and min(revisions) >= 0 else newest
            if newest is not None and min(revisions) >= newest:
                return
            if time.monotonic() > until:
                raise TimeoutError(f"the nodes don't all reach {newest}: {found}")
            time.sleep(0.3)

    def wait_until_idle(self) -> int:
        """Waits until the nodes are equal and nothing changes any more. Returns the revision."""
        for _ in range(60):
            time.sleep(3)
            self.wait_until_applied()
            found = {(it.health().get("revision"), it.health().get("saved")) for it in self.nodes}
            if len(found) == 1 and len(set(*found)) == 1:
                return int(str(self.nodes[0].health()["revision"]))
        raise TimeoutError("the nodes don't become idle")

    # --- Comparison

    def check_gaps(self, probes: list[Probe], began: float, ended: float) -> None:
        """A majority of healthy nodes acknowledges writes."""
        spans = list(majority_spans([list(healthy_spans(it.node.name, it.samples, self.faults)) for it in probes]))
        gap = longest_gap(spans, began, [it.answered for client in self.clients for it in client.writes], ended)
        healthy = sum(end - start for start, end in spans)
        self.check(gap <= GAP_SECONDS, f"a majority was healthy for {healthy:.0f} s, at most {gap:.1f} s of them without an acknowledged write")

    def compare_all(self) -> None:
        revision = self.wait_until_idle()
        digests = {str(it.health()["digest"]) for it in self.nodes}
        self.check(len(digests) == 1, f"the nodes are at revision {revision} with one digest")
        fold = compare.Fold(compare.dump(self.nodes[0], revision), self.program)
        self.check(fold.is_whole and not fold.differing,
                  f"the log's {len(fold.log)} messages get the same responses from avroreg run and from the machine in Python"
                  f" {fold.differing[:1] or ''}")  # fmt: skip
        writes = [it for client in self.clients for it in client.writes]
        lost, wrongly = fold.lost(writes), fold.wrong_responses(writes)
        self.check(not fold.malformed(), f"malformed messages in the log: {fold.malformed()}")
        self.check(not lost, f"acknowledged writes that the log lacks: {len(lost)} of {len(writes)}")
        count = sum(len(it.responses) for it in writes)
        example = [(it.message(), status, body) for it, status, body in wrongly[:1]]
        self.check(not wrongly, f"responses that the log doesn't give: {len(wrongly)} of {count} {example or ''}")
        early = compare.out_of_order([message for _, message in fold.log], writes)
        self.check(not early, f"writes that were acknowledged before another one began, and are after it in the log: {early}")
        self.outcome = Outcome(len(lost), 0, len(wrongly), early, 0, fold.repeats())
        self.compare_tables(fold)

    def compare_tables(self, fold: compare.Fold) -> None:
        wanted, found = fold.machine.tables(), []
        for node in self.nodes:
            node.kill("relay", "registry")
            found.append(compare.rows(node, self.program))
            node.run("registry", "relay")
        names = {name: [it[0][name] == wanted[name] for it in found] for name in wanted}
        self.outcome.differences = differences = sum(not it for same in names.values() for it in same)
        self.outcome.duplicates = sum(len(set(it[0]["versions"]) - set(wanted["versions"])) for it in found)
        sizes = ", ".join(f"{name} {len(rows)}" for name, rows in wanted.items())
        self.check(not differences, f"the tables of the three nodes are the log's: {sizes} {names if differences else ''}")
        self.check({it[1] for it in found} == {"evidence holds"}, f"their audits: {[it[1] for it in found]}")

    # --- A node that is too old, and one that was changed

    def command(self, node: SpaceNode, *words: str) -> str:
        done = subprocess.run([*node.prefix, sys.executable, str(HERE / "avroreg-cluster"), "--config", str(node.config), *words],
                              capture_output=True, text=True)  # fmt: skip
        return done.stdout + done.stderr

    def register(self, subject: str) -> None:
        body = json.dumps({"schema": json.dumps({"doc": subject, "fields": [], "name": "R", "type": "record"})}).encode()
        for _ in range(200):
            try:
                if ask(self.nodes[0], "POST", f"/subjects/{subject}/versions", body, subject)[0] == 200:
                    return
            except FAULTS:
                pass
            time.sleep(0.2)
        raise TimeoutError("a registration gets no response")

    def check_stops(self, node: SpaceNode, reason: str, text: str) -> None:
        until = time.monotonic() + SECONDS
        while node.health().get("status") != "stopped" and time.monotonic() < until:
            time.sleep(0.3)
        health = node.health()
        self.check(health.get("status") == "stopped" and reason in str(health.get("reasons")), f"{text}: {health.get('reasons')}")

    def check_others_go_on(self, node: SpaceNode) -> None:
        found = [it.health().get("status") for it in self.nodes if it is not node]
        self.check(found == ["ok", "ok"], f"the others go on: {found}")

    def try_old_node(self) -> None:
        """n3 loses its files, and the log is trimmed meanwhile. n3 must not go on from the remaining entries."""
        third = self.nodes[2]
        self.wait_until_idle()
        third.kill("relay", "registry")
        for path in (*third.files(), third.position):
            path.unlink(missing_ok=True)
        self.print_line("      " + self.command(self.nodes[0], "trim").strip())
        third.run("registry", "relay")
        self.register("after-trim")
        self.check_stops(third, "trimmed", "a node that needs entries that were trimmed stops")
        subjects = third.inside("curl", "-s", "-m", "30", "http://127.0.0.1:8081/subjects?deleted=true")
        self.check(subjects == b"[]", f"its avroreg got none of the remaining entries: {subjects[:100]!r}")
        self.rebuild(third, self.nodes[0])

    def rebuild(self, target: SpaceNode, source: SpaceNode) -> None:
        """Copies a node's database and position, like backup and restore."""
        for node in (target, source):
            node.kill("relay")
            node.kill("registry")
        for mine, its in zip(target.files(), source.files()):
            mine.unlink(missing_ok=True)
            if its.exists():
                shutil.copy(its, mine)
        shutil.copy(source.position, target.position)
        for node in (source, target):
            node.run("registry", "relay")
        self.wait_until_applied()

    def try_changed_node(self) -> None:
        """Somebody registers at n2's avroreg past the log. n2 must stop, and the others must go on."""
        second = self.nodes[1]
        body = json.dumps({"schema": json.dumps({"doc": "past the log", "fields": [], "name": "R", "type": "record"})})
        second.inside("curl", "-s", "-m", "30", "-d", body, "http://127.0.0.1:8081/subjects/past/versions")
        for number in range(3):
            self.register(f"after-change-{number}")
        self.check_stops(second, "answered otherwise", "a node whose avroreg was written to past the log stops")
        self.check_others_go_on(second)
        self.rebuild(second, self.nodes[0])

    def try_older_database(self) -> None:
        """n3 gets an older database next to its newer position. It must answer nothing until it has the right one again."""
        third = self.nodes[2]
        third.kill("relay", "registry")
        old = [it.read_bytes() if it.exists() else b"" for it in third.files()]
        third.run("registry", "relay")
        self.register("before-older-database")
        self.wait_until_idle()
        third.kill("relay", "registry")
        right = [it.read_bytes() if it.exists() else b"" for it in third.files()]
        self.put_files(third, old)
        self.register("after-older-database")
        self.wait_for_trouble(third)
        statuses = [ask(third, "GET", target)[0] for target in ("/config", "/subjects", "/subjects/after-older-database/versions")]
        self.check(statuses == [503] * 3, f"a node with an older database next to its position answers nothing: {statuses}")
        self.check_others_go_on(third)
        third.kill("relay", "registry")
        self.put_files(third, right)
        self.wait_until_idle()
        self.check(ask(third, "GET", "/subjects/after-older-database/versions")[0] == 200, "with its own database it goes on")

    def put_files(self, node: SpaceNode, contents: list[bytes]) -> None:
        """Starts a node with these files."""
        for path, content in zip(node.files(), contents):
            path.write_bytes(content) if content else path.unlink(missing_ok=True)
        node.run("registry", "relay")

    def wait_for_trouble(self, node: SpaceNode) -> None:
        until = time.monotonic() + SECONDS
        while "another registry" not in str(node.health().get("reasons")):
            if time.monotonic() > until:
                self.check(False, f"{node.name} notices that it has another registry: {node.health()}")
                return
            time.sleep(0.3)

    # --- The whole trial

    def run(self) -> None:
        options = self.options
        self.cluster.set_up(self.program)
        while not self.cluster.leader() or any(it.health().get("status") != "ok" for it in self.nodes):
            time.sleep(0.5)
        self.clients = [Client(list(self.nodes), number, options.rate, options.seed) for number in range(8)]
        probes = [Probe(it) for it in self.nodes]
        for thread in (*self.clients, *probes):
            thread.start()
        began = time.monotonic()
        time.sleep(3)
        self.make_faults(options.seconds)
        ended = time.monotonic()
        for thread in (*self.clients, *probes):
            thread.stop.set()
        for client in self.clients:
            client.join(60)
            client.give_up.set()
            client.join()
            self.wrong += client.wrong
        self.check_gaps(probes, began, ended)
        self.compare_all()
        self.print_line(f"\n{table(began, ended, self.faults, self.clients, self.outcome)}\n")
        self.try_old_node()
        self.try_changed_node()
        self.try_older_database()


def main() -> None:
    parser = argparse.ArgumentParser(description=(__doc__ or "").split("\n")[0])
    parser.add_argument("program", type=pathlib.Path)
    parser.add_argument("--seconds", type=float, default=60, help="how long to make faults (60)")
    parser.add_argument("--rate", type=float, default=4, help="writes a second and client (4)")
    parser.add_argument("--seed", type=int, default=1)
    parser.add_argument("--relay", type=pathlib.Path, default=HERE / "avroreg-relay", help="another relay, such as one with a break")
    options = parser.parse_args()
    signal.signal(signal.SIGTERM, lambda *_: sys.exit("ended by a signal"))
    with tempfile.TemporaryDirectory() as folder:
        trial = Trial(options, pathlib.Path(folder))
        trial.cluster.tear_down()
        trial.cluster = SpaceCluster(pathlib.Path(folder) / "cluster", options.relay.resolve())
        trial.nodes = list(trial.cluster.spaces.values())
        try:
            trial.run()
        except (TimeoutError, KeyError) as fault:
            trial.check(False, f"the trial ends: {fault!r}")
        finally:
            if os.environ.get("KEEP"):
                keep = shutil.ignore_patterns("disk.img", "avroreg", "lost+found", ETCD)
                shutil.copytree(trial.cluster.folder, os.environ["KEEP"], ignore=keep, dirs_exist_ok=True)
            trial.cluster.tear_down()
    print(f"{len(trial.wrong)} wrong")
    sys.exit(bool(trial.wrong))


if __name__ == "__main__":
    main()
