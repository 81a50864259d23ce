#!/usr/bin/env python3
"""Three nodes on the loopback of one machine: for try.sh, the tests and the measurements.

    local.py FOLDER new PROGRAM            writes the configurations, starts nothing
    local.py FOLDER start [NODE [SERVICE]] starts etcd, registry and relay, and returns once they answer
    local.py FOLDER stop|kill [NODE [SERVICE]]

Each process has a file with its id. Only processes with such a file are killed.
"""
import http.client
import json
import os
import pathlib
import random
import shutil
import signal
import socket
import subprocess
import sys
import time
import urllib.error
import urllib.request
from typing import Any

HERE = pathlib.Path(__file__).resolve().parent.parent
NODES = ("n1", "n2", "n3")
SERVICES = ("etcd", "registry", "relay")
SECONDS = 180.0  # the longest wait for a service, on a busy machine
FAILOVER_SECONDS = 3.0  # shorter than on a real node, so that the trials take less time
PORTS = ("peer", "registry", "relay", "admin", "https", "nodes")
ETCD = "client:0"  # the socket that etcd makes for unix://client:0, in its working folder


def free_ports(count: int) -> int:
    """The first of `count` free ports in a row."""
    for _ in range(100):
        first = random.randrange(20000, 32000 - count)
        try:
            for port in range(first, first + count):
                with socket.socket() as found:
                    found.bind(("127.0.0.1", port))
            return first
        except OSError:
            continue
    raise SystemExit("local.py: no free ports")


class Node:
    def __init__(self, cluster: "Cluster", name: str) -> None:
        self.cluster, self.name = cluster, name
        self.folder = cluster.folder / name
        first = cluster.first_port + 10 * NODES.index(name)
        self.ports = {name: first + at for at, name in enumerate(PORTS)}
        self.database, self.position = self.folder / "registry.db", self.folder / "position"
        self.config, self.local_reads = self.folder / "relay.toml", self.folder / "local-reads"
        self.etcd_socket = self.folder / ETCD
        self.host, self.peer_host, self.prefix = "127.0.0.1", "127.0.0.1", list[str]()
        self.relay = HERE / "avroreg-relay"

    @property
    def url(self) -> str:
        return f"http://{self.host}:{self.ports['relay']}"

    @property
    def peer_url(self) -> str:
        return f"https://{self.peer_host}:{self.ports['peer']}"

    def write_config(self) -> None:
        """Writes the repository's configuration, with this node's names and ports."""
        self.folder.mkdir(parents=True, exist_ok=True)
        control = [sys.executable, __file__, str(self.cluster.folder)]
        values: dict[str, object] = {
            "node": self.name,
            **{name: f"{self.host}:{self.ports[port]}" for name, port in (("listen", "relay"), ("admin", "admin"))},
            "registry": f"127.0.0.1:{self.ports['registry']}", "etcd": str(self.etcd_socket), "failover_seconds": FAILOVER_SECONDS,
            "position": str(self.position), "database": str(self.database), "program": str(self.folder / "avroreg"),
            "local_reads": str(self.local_reads),
            **{f"{verb}_{service}": [*control, verb, self.name, service]
               for verb in ("start", "stop") for service in ("relay", "registry")},
        }  # fmt: skip
        lines = []
        for line in (HERE / "relay.toml").read_text().splitlines():
            name = line.partition(" = ")[0]
            lines.append(f"{name} = {json.dumps(values[name])}" if name in values else line)
        self.config.write_text("\n".join(lines) + "\n")

    def command(self, service: str) -> list[str]:
        if service == "registry":
            return [str(self.folder / "avroreg"), "serve", "--db", str(self.database), "--port", str(self.ports["registry"])]
        if service == "relay":
            return [sys.executable, str(self.relay), "--config", str(self.config)]
        tls = self.cluster.folder / "tls"
        client = f"unix://{ETCD}"
        members = ",".join(f"{it.name}={it.peer_url}" for it in self.cluster.nodes.values())
        arguments = {
            "name": self.name, "data-dir": self.folder / "etcd", "logger": "zap", "log-level": "warn", "pre-vote": "true",
            "listen-client-urls": client, "advertise-client-urls": client, "listen-peer-urls": self.peer_url,
            "initial-advertise-peer-urls": self.peer_url, "initial-cluster": members, "initial-cluster-token": "avroreg",
            "initial-cluster-state": "existing" if (self.folder / "joins").exists() else "new", "peer-client-cert-auth": "true",
            "peer-trusted-ca-file": tls / "ca.crt", "peer-cert-file": tls / f"{self.name}.crt",
            "peer-key-file": tls / f"{self.name}.key", "quota-backend-bytes": self.cluster.quota,
        }  # fmt: skip
        return ["etcd", *(f"--{name}={value}" for name, value in arguments.items())]

    def process(self, service: str) -> int | None:
        """The id of the service's process, if it runs. A killed process keeps its ports until its last thread has ended."""
        try:
            number = int((self.folder / f"{service}.pid").read_text())
            state = pathlib.Path(f"/proc/{number}/stat").read_text().rpartition(")")[2].split()[0]
            return None if state == "Z" and len(os.listdir(f"/proc/{number}/task")) == 1 else number
        except (OSError, ValueError):
            return None

    def start(self, service: str) -> None:
        if self.process(service):
            return
        left = {"etcd": self.etcd_socket, "registry": self.local_reads}.get(service)  # systemd removes these files
        if left:
            left.unlink(missing_ok=True)
        with open(self.folder / f"{service}.log", "ab") as log:
            command = [*self.prefix, *self.command(service)]
            process = subprocess.Popen(
                command, stdin=subprocess.DEVNULL, stdout=log, stderr=log, start_new_session=True, cwd=self.folder, umask=0o077
            )
        (self.folder / f"{service}.pid").write_text(str(process.pid))

    def end(self, service: str, number: signal.Signals) -> None:
        process = self.process(service)
        if process:
            os.kill(process, number)
            for _ in range(600):
                if not self.process(service):
                    break
                time.sleep(0.05)
        (self.folder / f"{service}.pid").unlink(missing_ok=True)

    def is_up(self, service: str) -> bool:
        if service == "etcd":
            return self.etcd("/health").get("health") == "true"
        try:
            stale = urllib.request.Request(f"http://127.0.0.1:{self.ports[service]}/config", headers={"Cache-Control": "max-stale"})
            with urllib.request.urlopen(stale, timeout=5):
                return True
        except urllib.error.HTTPError:  # a stopped relay still runs, and returns 503
            return service == "relay" and self.health().get("status") == "stopped"
        except OSError:
            return False

    def etcd(self, path: str, document: object = None) -> dict[str, Any]:
        """The JSON response of this node's etcd, empty if it doesn't respond."""
        words = ["curl", "-s", "-m", "5", "--unix-socket", str(self.etcd_socket), f"http://etcd{path}"]
        found = subprocess.run([*words, *([] if document is None else ["-d", json.dumps(document)])], capture_output=True).stdout
        try:
            return dict(json.loads(found))
        except ValueError:
            return {}

    def health(self) -> dict[str, object]:
        try:
            with urllib.request.urlopen(f"http://{self.host}:{self.ports['admin']}/health", timeout=5) as found:
                return dict(json.load(found))
        except urllib.error.HTTPError as fault:
            return dict(json.load(fault))
        except (OSError, ValueError, http.client.HTTPException):
            return {}


class Cluster:
    def __init__(self, folder: pathlib.Path) -> None:
        self.folder = folder.resolve()
        port_file = self.folder / "first_port"
        if not port_file.exists():
            self.folder.mkdir(parents=True, exist_ok=True)
            port_file.write_text(str(free_ports(30)))
        self.first_port = int(port_file.read_text())
        self.quota = 0  # of each etcd, in bytes; 0 means etcd's default of 2 GB
        self.nodes = {name: Node(self, name) for name in NODES}

    def new(self, program: pathlib.Path) -> None:
        for node in self.nodes.values():
            node.write_config()
            shutil.copy(program, node.folder / "avroreg")
        hosts = [f"{name}={node.peer_host}" for name, node in self.nodes.items()]
        subprocess.run([str(HERE / "certificates.sh"), str(self.folder / "tls"), *hosts], check=True)

    def selected(self, arguments: list[str]) -> list[tuple[Node, str]]:
        names, services = arguments[:1] or NODES, arguments[1:2] or SERVICES
        return [(self.nodes[name], service) for service in services for name in names]

    def start(self, *arguments: str, seconds: float = SECONDS) -> None:
        selected = self.selected(list(arguments))
        for node, service in selected:
            node.start(service)
        until = time.monotonic() + seconds
        for node, service in selected:
            while not node.is_up(service):
                if time.monotonic() > until or not node.process(service):
                    tail = (node.folder / f"{service}.log").read_text().splitlines()[-5:]
                    raise SystemExit(f"local.py: {service} of {node.name} doesn't answer: " + " | ".join(tail))
                time.sleep(0.05)

    def end(self, number: signal.Signals, *arguments: str) -> None:
        for node, service in reversed(self.selected(list(arguments))):
            node.end(service, number)


def main() -> None:
    cluster, verb = Cluster(pathlib.Path(sys.argv[1])), sys.argv[2]
    if verb == "new":
        cluster.new(pathlib.Path(sys.argv[3]))
    elif verb == "start":
        cluster.start(*sys.argv[3:])
    else:
        # avroreg needs no clean-up: every stop is a kill.
        cluster.end({"stop": signal.SIGTERM, "kill": signal.SIGKILL}[verb], *sys.argv[3:])


if __name__ == "__main__":
    main()
