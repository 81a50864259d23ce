"""Three nodes in three network namespaces. Each has a link to its peers, a link to its clients, and its own small disk.

Every process that starts here is killed by its process id.
"""
import os
import pathlib
import shutil
import signal
import subprocess
import threading

from trial.local import SERVICES, Cluster, Node

PEER_BRIDGE, CLIENT_BRIDGE = "avrbridgep", "avrbridgec"
PORTS = {"peer": 2380, "registry": 8081, "relay": 8080, "admin": 8082}
LINKS = {"peers": "p", "clients": "c"}


def shell(*words: str, may_fail: bool = False) -> None:
    done = subprocess.run(words, capture_output=True, text=True)
    if done.returncode and not may_fail:
        raise OSError(f"{' '.join(words)}: {done.stderr}")


class SpaceNode(Node):
    def __init__(self, cluster: "SpaceCluster", name: str) -> None:
        super().__init__(cluster, name)
        self.number = int(name[1:])
        self.space = f"avrspace{self.number}"
        self.prefix = ["ip", "netns", "exec", self.space]
        self.peer_host, self.host = f"10.77.1.{self.number}", f"10.77.2.{self.number}"
        self.ports = PORTS
        self.disk = self.folder / "disk"
        self.database, self.position = self.disk / "registry.db", self.disk / "position"
        self.relay = cluster.relay
        self.lock = threading.RLock()
        self.wanted: set[str] = set()
        self.starts = {it: 0 for it in SERVICES}

    def set_up(self) -> None:
        self.disk.mkdir(parents=True)
        image = self.folder / "disk.img"
        shell("truncate", "-s", "160M", str(image))
        shell("mkfs.ext4", "-q", "-F", str(image))
        shell("mount", "-o", "loop", str(image), str(self.disk))
        shell("ip", "netns", "add", self.space)
        shell("ip", "-n", self.space, "link", "set", "lo", "up")
        for word, bridge, ip in (("p", PEER_BRIDGE, self.peer_host), ("c", CLIENT_BRIDGE, self.host)):
            outer, inner = f"avrlink{word}{self.number}", f"{word}0"
            shell("ip", "link", "add", outer, "type", "veth", "peer", "name", inner, "netns", self.space)
            shell("ip", "link", "set", outer, "master", bridge, "up")
            shell("ip", "-n", self.space, "addr", "add", f"{ip}/24", "dev", inner)
            shell("ip", "-n", self.space, "link", "set", inner, "up")

    def files(self) -> tuple[pathlib.Path, pathlib.Path]:
        """The database and its write-ahead log."""
        return self.database, self.database.with_name(self.database.name + "-wal")

    def tear_down(self) -> None:
        self.wanted.clear()
        for service in SERVICES:
            self.signal(signal.SIGCONT, service)
            self.end(service, signal.SIGKILL)
        shell("ip", "netns", "del", self.space, may_fail=True)
        for word in LINKS.values():
            shell("ip", "link", "del", f"avrlink{word}{self.number}", may_fail=True)
        shell("umount", str(self.disk), may_fail=True)

    def inside(self, *words: str, seconds: float = 30) -> bytes:
        """Runs a command in the node's network. Returns its output, empty if it takes too long."""
        try:
            return subprocess.run([*self.prefix, *words], capture_output=True, timeout=seconds).stdout
        except subprocess.TimeoutExpired:
            return b""

    def cut(self, links: tuple[str, ...], is_cut: bool) -> None:
        for link in links:
            shell("ip", "link", "set", f"avrlink{LINKS[link]}{self.number}", "down" if is_cut else "up")

    def signal(self, number: signal.Signals, *services: str) -> None:
        for service in services or SERVICES:
            if process := self.process(service):
                os.kill(process, number)

    def run(self, *services: str) -> None:
        """Starts services, and restarts them if they end, as systemd does."""
        with self.lock:
            self.wanted.update(services or SERVICES)
            self.revive()

    def kill(self, *services: str) -> None:
        with self.lock:
            self.wanted -= set(services or SERVICES)
            self.signal(signal.SIGKILL, *services)
            for service in services or SERVICES:
                self.end(service, signal.SIGKILL)

    def revive(self) -> None:
        with self.lock:
            for service in self.wanted:
                if not self.process(service):
                    self.starts[service] += 1
                    self.start(service)

    def is_leader(self) -> bool:
        status = self.etcd("/v3/maintenance/status", {})
        return "leader" in status and status["leader"] == status["header"]["member_id"]


class SpaceCluster(Cluster):
    def __init__(self, folder: pathlib.Path, relay: pathlib.Path) -> None:
        self.relay = relay
        super().__init__(folder)
        self.spaces = {name: SpaceNode(self, name) for name in self.nodes}
        self.nodes = dict(self.spaces)
        self.over = threading.Event()

    def set_up(self, program: pathlib.Path) -> None:
        for bridge in (PEER_BRIDGE, CLIENT_BRIDGE):
            shell("ip", "link", "add", bridge, "type", "bridge")
            shell("ip", "link", "set", bridge, "up")
        shell("ip", "addr", "add", "10.77.2.254/24", "dev", CLIENT_BRIDGE)
        for node in self.spaces.values():
            node.set_up()
        self.new(program)
        for node in self.spaces.values():
            node.run()
        threading.Thread(target=self.supervise, daemon=True).start()

    def supervise(self) -> None:
        while not self.over.wait(0.5):
            for node in self.spaces.values():
                node.revive()

    def leader(self) -> SpaceNode | None:
        return next((it for it in self.spaces.values() if it.is_leader()), None)

    def tear_down(self) -> None:
        self.over.set()
        for node in self.spaces.values():
            node.tear_down()
        for bridge in (PEER_BRIDGE, CLIENT_BRIDGE):
            shell("ip", "link", "del", bridge, may_fail=True)
        shutil.rmtree(self.folder, ignore_errors=True)
