"""The faults of the trial, each with its beginning and its end."""
import pathlib
import signal
import time
from functools import partial
from typing import Callable

from trial.local import SERVICES
from trial.spaces import SpaceNode

Step = Callable[[SpaceNode], None]


def fill(node: SpaceNode) -> None:
    """Fills the node's disk."""
    with open(node.disk / "filler", "wb", buffering=0) as stream:
        try:
            while stream.write(bytes(4096)) == 4096:
                pass
        except OSError:
            pass


def empty(node: SpaceNode) -> None:
    """Makes room again, and restarts avroreg like an operator, since it returns 50001 until a restart."""
    (node.disk / "filler").unlink()
    node.kill("registry")
    node.run("registry")


def lose_the_file(node: SpaceNode) -> None:
    """avroreg starts without its file, like one whose disk isn't mounted."""
    node.kill("registry")
    for path in filter(pathlib.Path.exists, node.files()):
        path.rename(path.with_suffix(path.suffix + ".lost"))
    node.run("registry")


def find_the_file(node: SpaceNode) -> None:
    node.kill("registry")
    for path in node.files():
        path.unlink(missing_ok=True)
        if (lost := path.with_suffix(path.suffix + ".lost")).exists():
            lost.rename(path)
    node.run("registry")


def kill_slowly(node: SpaceNode) -> None:
    node.kill("registry")
    time.sleep(1)
    node.kill()


def kill_and_compact(nodes: list[SpaceNode], node: SpaceNode) -> None:
    """Kills a node, and then compacts etcd's history at another one, as etcd's own compaction may."""
    node.kill()
    time.sleep(1)
    running = [it for it in nodes if it.process("etcd")]
    if len(running) < 2:
        return  # two nodes are killed, and one alone can't compact
    for _ in range(10):  # an election takes one or two seconds
        revision = running[0].etcd("/v3/kv/range", {"key": "eA=="}).get("header", {}).get("revision")
        if revision and "header" in running[0].etcd("/v3/kv/compaction", {"revision": revision}):
            return
        time.sleep(0.5)


def kinds_of_faults(nodes: list[SpaceNode]) -> dict[str, tuple[Step, Step]]:
    """Each kind of fault: how it begins, and how it ends."""

    def run_all(node: SpaceNode) -> None:
        node.run()

    kinds: dict[str, tuple[Step, Step]] = {
        "fill the disk": (fill, empty),
        "lose the file": (lose_the_file, find_the_file),
        "kill all": (lambda it: it.kill(), run_all),
        "kill registry, then all": (kill_slowly, run_all),
        "kill all, and compact": (partial(kill_and_compact, nodes), run_all),
    }
    for service in SERVICES:
        kinds[f"kill {service}"] = (partial(kill, service), partial(run, service))
        kinds[f"pause {service}"] = (partial(send, signal.SIGSTOP, service), partial(send, signal.SIGCONT, service))
    for links in (("peers",), ("clients",), ("peers", "clients")):
        kinds[f"cut from {' and '.join(links)}"] = (partial(cut, links, True), partial(cut, links, False))
    return kinds


def kill(service: str, node: SpaceNode) -> None:
    node.kill(service)


def run(service: str, node: SpaceNode) -> None:
    node.run(service)


def send(number: signal.Signals, service: str, node: SpaceNode) -> None:
    node.signal(number, service)


def cut(links: tuple[str, ...], is_cut: bool, node: SpaceNode) -> None:
    node.cut(links, is_cut)
