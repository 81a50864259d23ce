"""nginx in front of the nodes of a cluster. It has the repository's nginx.conf with this machine's names and ports."""
import http.client
import os
import pathlib
import signal
import ssl
import subprocess
import time

from trial.local import Cluster, Node

USER = ("producer", "secret")
WRAPPER = """daemon off;
{user}
worker_processes 1;
pid nginx.pid;
events {{ }}
http {{
    access_log access.log;
    client_body_temp_path bodies;
    proxy_temp_path       answers;
    fastcgi_temp_path     unused;
    uwsgi_temp_path       unused;
    scgi_temp_path        unused;
    include {config};
}}
"""


def set_up_users(folder: pathlib.Path) -> pathlib.Path:
    """Makes a file of one user in htpasswd's format."""
    path = folder / "users"
    if not path.exists():
        hashed = subprocess.run(["openssl", "passwd", "-apr1", USER[1]], capture_output=True, text=True, check=True).stdout.strip()
        path.write_text(f"{USER[0]}:{hashed}\n")
    return path


class Nginx:
    """One nginx. Its configuration is the contents of an http block."""

    def __init__(self, folder: pathlib.Path, config: str, port: int) -> None:
        self.folder, self.port = folder, port
        folder.mkdir(parents=True, exist_ok=True)
        (folder / "front.conf").write_text(config)
        (folder / "nginx.conf").write_text(WRAPPER.format(user="user root;" if os.geteuid() == 0 else "", config=folder / "front.conf"))
        self.process = subprocess.Popen(["/usr/sbin/nginx", "-p", str(folder), "-c", "nginx.conf", "-e", "error.log"], stdin=subprocess.DEVNULL)

    def wait(self) -> None:
        """Waits until it listens."""
        until = time.monotonic() + 30
        while True:
            try:
                http.client.HTTPConnection("127.0.0.1", self.port, timeout=5).connect()
                return
            except OSError as fault:
                if self.process.poll() is not None or time.monotonic() > until:
                    raise SystemExit(f"nginx doesn't listen: {(self.folder / 'error.log').read_text()}") from fault
                time.sleep(0.1)

    def stop(self) -> None:
        self.process.send_signal(signal.SIGTERM)
        self.process.wait()


def of_node(cluster: Cluster, node: Node) -> Nginx:
    """The nginx of one node of three."""
    tls, (second, third) = cluster.folder / "tls", [it for it in cluster.nodes.values() if it is not node]
    config = (node.relay.parent / "nginx.conf").read_text()
    for old, new in (
        ("10.0.0.2:8444", f"127.0.0.1:{second.ports['nodes']}"),
        ("10.0.0.3:8444", f"127.0.0.1:{third.ports['nodes']}"),
        ("127.0.0.1:8080", f"127.0.0.1:{node.ports['relay']}"),
        ("127.0.0.1:8081", f"127.0.0.1:{node.ports['registry']}"),
        ("/run/avroreg-relay/local-reads", str(node.local_reads)),
        ("listen 443 ", f"listen 127.0.0.1:{node.ports['https']} "),
        ("listen 8444 ", f"listen 127.0.0.1:{node.ports['nodes']} "),
        ("/etc/avroreg/tls/clients.", f"{tls}/{node.name}."),
        ("/etc/avroreg/tls/node.", f"{tls}/{node.name}."),
        ("/etc/avroreg/tls/", f"{tls}/"),
        ("/etc/nginx/avroreg.users", str(set_up_users(cluster.folder))),
    ):
        if old not in config:
            raise SystemExit(f"front.py: nginx.conf has no {old}")
        config = config.replace(old, new)
    return Nginx(node.folder / "nginx", config, node.ports["https"])


def connection(port: int, authority: pathlib.Path, certificate: tuple[pathlib.Path, pathlib.Path] | None = None) -> http.client.HTTPSConnection:
    """A TLS connection that trusts only this authority, and sends this certificate, which has this key."""
    trust = ssl.create_default_context(cafile=str(authority))
    if certificate:
        trust.load_cert_chain(*map(str, certificate))
    return http.client.HTTPSConnection("127.0.0.1", port, timeout=60, context=trust)
