#!/usr/bin/env python3
"""Tests each operation of README.md on three nodes of this machine's loopback, one after the other.

    operations.py PROGRAM [--relay FILE] [NAME]..     NAME: an operation; default: all. FILE: another relay, such as one with a break

The status is 0 if each operation worked, 1 if one didn't, 2 if a name is unknown.
"""
import argparse
import http.client
import json
import pathlib
import re
import shutil
import signal
import sqlite3
import subprocess
import sys
import tempfile
import threading
import time

HERE = pathlib.Path(__file__).resolve().parent.parent
sys.path.insert(0, str(HERE))

from trial.local import Node  # noqa: E402
from trial.steps import FAULTS, Wrong, ask, check, end_on_sigterm, schema  # noqa: E402
from trial.accidents import Accidents  # noqa: E402
from trial.files import Files  # noqa: E402


class Operations(Accidents, Files):
    def from_nothing(self) -> None:
        self.set_up()
        check(self.register(self.nodes[0], 3) == [1, 2, 3], "three schemas are registered at n1")
        check(self.register(self.nodes[1], 2) == [4, 5], "two schemas are registered at n2")
        self.wait_until_equal()
        check("5 entries" in self.command(self.nodes[2], "status"), "status shows five entries")

    def adopt(self) -> None:
        """A single avroreg becomes n1 of three nodes."""
        self.set_up()
        self.cluster.end(signal.SIGTERM)
        first, second, third = self.nodes
        for node in self.nodes:
            for path in (node.database, node.database.with_name("registry.db-wal"), node.position):
                path.unlink(missing_ok=True)
        self.cluster.start("n1", "registry")
        single = http.client.HTTPConnection("127.0.0.1", first.ports["registry"], timeout=60)
        for number in range(4):
            single.request("POST", f"/subjects/old{number}/versions", schema(1000 + number), {"Registry-Retry-Key": f"old{number}"})
            check(json.loads(single.getresponse().read())["id"] == number + 1, f"the single avroreg registers a schema with id {number + 1}")
        single.close()
        for node in self.nodes:
            node.start("etcd")
        self.wait_for(lambda: all(it.is_up("etcd") for it in self.nodes), "etcd runs")
        self.command(first, "adopt", first.database)
        copy = self.folder / "copy.db"
        first.end("relay", signal.SIGTERM)
        first.end("registry", signal.SIGTERM)
        shutil.copy(first.database, copy)
        self.cluster.start("n1", "registry")
        self.cluster.start("n1", "relay")
        other = self.folder / "other.db"
        shutil.copy(copy, other)
        with open(other, "ab") as stream:
            stream.write(bytes(4096))
        check("another file" in self.command(second, "adopt", other, fails=True), "n2 can't adopt another file")
        self.cluster.start("n3", "registry")
        third.start("relay")
        self.wait_for(lambda: third.health().get("status") == "stopped", "n3 on an empty file stops")
        self.command(second, "adopt", copy)
        self.command(third, "adopt", copy)
        check(self.register(third, 2) == [5, 6], "ids go on after those of the file")
        self.retry(second, "old2", "old2", schema(1002), 3, "a retry of a write to the single avroreg gets its first response")

    def retry(self, node: Node, subject: str, key: str, body: bytes, number: int, what: str) -> None:
        """Retries a registration, checks the id of its first response, and waits until the nodes are equal."""
        response = ask(node, "POST", f"/subjects/{subject}/versions", body, **{"Registry-Retry-Key": key})
        check(response == (200, b'{"id":%d}' % number), what)
        self.wait_until_equal()

    def replace(self) -> None:
        """n3 is lost with its disk: etcd's data, the database, the position."""
        self.set_up()
        first, second, third = self.nodes
        self.register(first, 4)
        self.cluster.end(signal.SIGKILL, "n3")
        for path in (third.folder / "etcd",):
            shutil.rmtree(path)
        for path in (third.database, third.database.with_name("registry.db-wal"), third.position):
            path.unlink(missing_ok=True)
        check(self.register(second, 2) == [5, 6], "two nodes go on")
        backup = self.folder / "replace-backup"
        self.command(first, "backup", backup)
        self.wait_for(lambda: self.have_published(2), "two nodes have published their positions")
        self.command(first, "trim")
        printed = self.command(second, "replace", "n3", f"https://127.0.0.1:{third.ports['peer']}")
        check("--initial-cluster-state=existing" in printed, "replace prints how to start the new member")
        (third.folder / "joins").touch()
        third.start("etcd")
        self.wait_for(lambda: third.is_up("etcd"), "the new member runs")
        third.start("registry")
        third.start("relay")
        self.register(second, 1)
        self.wait_for(lambda: third.health().get("revision") or third.health().get("status") == "stopped", "n3 without a file follows or stops")
        self.command(third, "restore", backup)
        self.wait_until_equal()

    def upgrade(self) -> None:
        """Each node gets a new program, while a client reads without a pause."""
        self.set_up()
        self.register(self.nodes[0], 3)
        self.wait_until_equal()
        new = self.folder / "new-program"
        shutil.copy(self.program, new)
        over, failures, reads = threading.Event(), [], []

        def read() -> None:
            at = 0
            while not over.is_set():
                for turn in range(3):  # like nginx: the next node if one doesn't answer
                    try:
                        status, _ = ask(self.nodes[(at + turn) % 3], "GET", "/subjects/s1/versions")
                        if status == 200:
                            reads.append(at)
                            break
                    except FAULTS:
                        pass
                else:
                    failures.append(at)
                at += 1
                time.sleep(0.02)

        reader = threading.Thread(target=read)
        check("aren't paused" in self.command(self.nodes[1], "upgrade", new, fails=True), "upgrade fails unless writes are paused")
        check("is no file" in self.command(self.nodes[1], "upgrade", self.folder / "missing", fails=True), "upgrade needs a program")
        reader.start()
        try:
            self.command(self.nodes[1], "pause")
            status, body = ask(self.nodes[0], "PUT", "/config", b'{"compatibility":"FULL"}')
            check((status, json.loads(body)["error_code"]) == (503, 50304), "a write gets 503 with 50304")
            self.command(self.nodes[1], "upgrade", "--migrate", shutil.which("false"), fails=True)
            self.wait_for(lambda: self.nodes[1].is_up("relay"), "n2 answers after a program that can't migrate")
            for node in self.nodes:
                before = node.process("registry")
                self.command(node, "upgrade", new)
                self.wait_for(lambda: node.is_up("relay"), f"{node.name} answers again")
                check(node.process("registry") != before, f"{node.name} runs the new program")
            self.command(self.nodes[2], "resume")
        finally:
            over.set()
            reader.join()
        check(reads and not failures, f"of {len(reads)} reads none failed")
        check(self.register(self.nodes[0], 1) == [4], "writes go on")
        self.wait_until_equal()

    def have_published(self, nodes: int = 3) -> bool:
        """Whether the published positions of at least this number of nodes are that of the newest entry."""
        status_text = self.command(self.nodes[0], "status")
        newest = re.search("newest ([0-9]+)", status_text)
        return newest is not None and status_text.count(f": revision {newest[1]},") >= nodes

    def trim(self) -> None:
        self.set_up()
        self.register(self.nodes[0], 5)
        self.wait_for(self.have_published, "the nodes have published their positions")
        self.cluster.end(signal.SIGTERM, "n2", "relay")
        self.register(self.nodes[0], 5)
        self.wait_for(lambda: self.have_published(2), "n1 and n3 have applied five entries that n2 hasn't")
        backup = self.folder / "trim-old"
        self.command(self.nodes[0], "trim")
        check("5 entries" in self.command(self.nodes[0], "status"), "trim keeps the entries that n2 hasn't applied")
        self.cluster.start("n2", "relay")
        self.wait_until_equal()
        self.command(self.nodes[2], "backup", backup)
        self.wait_until_equal()
        self.wait_for(self.have_published, "the nodes have published their positions")
        check("removed 5" in self.command(self.nodes[2], "trim"), "once n2 has applied them, trim removes them")
        self.register(self.nodes[1], 2)
        self.wait_until_equal()
        self.command(self.nodes[0], "restore", backup)
        self.wait_until_equal()
        self.register(self.nodes[1], 1)
        self.wait_until_equal()
        self.wait_for(self.have_published, "the nodes have published their positions")
        self.command(self.nodes[2], "trim")
        check("newer backup" in self.command(self.nodes[0], "restore", backup, fails=True), "a backup older than the log is rejected")
        self.wait_until_equal()

    def write_until_full(self) -> None:
        """Writes to the log until etcd's quota is full."""
        body = json.dumps({"compatibility": "FULL", "padding": "x" * 400000}).encode()
        for number in range(200):
            status, response = ask(self.nodes[0], "PUT", f"/config/full{number}", body, **{"Registry-Retry-Key": f"full{number}"})
            if status == 503:
                check(number, f"after {number} large writes etcd's quota is full, and a write gets {json.loads(response)['error_code']}")
                return
        raise Wrong("etcd's quota doesn't get full")

    def serves(self, node: Node) -> bool:
        """Whether a node's etcd serves. Its /health fails during the alarm of a full quota, so this reads /version."""
        return bool(node.etcd("/version"))

    def full_quota(self) -> None:
        """etcd's quota is full: writes stop, and reads go on. With a larger quota, trimming makes room."""
        self.set_up(quota=16 * 1048576)
        first, second, third = self.nodes
        self.register(first, 1)
        self.write_until_full()
        check(ask(second, "GET", "/subjects")[0] == 200, "reads go on")
        check(ask(third, "GET", "/subjects", None, **{"Cache-Control": "no-cache"})[0] == 200, "fresh reads go on")
        self.cluster.quota *= 4
        for node in self.nodes:
            node.end("etcd", signal.SIGTERM)
            node.start("etcd")
            self.wait_for(lambda: self.serves(node), f"etcd of {node.name} has a larger quota")
        for node in self.nodes:
            self.command(node, "defragment")
        self.wait_for(self.have_published, "the nodes have published their positions")
        print("  " + self.command(second, "trim").strip().replace("\n", "; "))
        for node in (first, third):
            self.command(node, "defragment")
        check(self.register(second, 2) == [2, 3], "writes go on")
        self.wait_until_equal()

    def restore_all(self) -> None:
        """All three nodes are lost, and there is one backup."""
        self.set_up()
        ids = self.register(self.nodes[0], 4)
        self.wait_until_equal()
        backup = self.folder / "last-backup"
        self.command(self.nodes[1], "backup", backup)
        self.cluster.end(signal.SIGKILL)
        for node in self.nodes:
            shutil.rmtree(node.folder / "etcd")
            for path in (node.database, node.database.with_name("registry.db-wal"), node.position):
                path.unlink(missing_ok=True)
            node.start("etcd")
        self.wait_for(lambda: all(it.is_up("etcd") for it in self.nodes), "a new etcd runs")
        check("another cluster" in self.command(self.nodes[0], "restore", backup, fails=True), "restore rejects another cluster's backup")
        for node in self.nodes:
            self.command(node, "adopt", backup / "registry.db")
        self.wait_until_equal()
        check(self.register(self.nodes[2], 1) == [ids[-1] + 1], "ids go on after those of the backup")
        self.retry(self.nodes[0], "s2", "k2", schema(2), 2, "a retry of an old write gets its first response")

    def tampered(self) -> None:
        """Somebody writes to n2's database past the log, and then changes a row that no write depends on."""
        self.set_up()
        first, second, third = self.nodes
        self.register(first, 2)
        self.wait_until_equal()
        direct = http.client.HTTPConnection("127.0.0.1", second.ports["registry"], timeout=60)
        direct.request("POST", "/subjects/past/versions", schema(9999))
        check(direct.getresponse().status == 200, "a schema is registered at n2's avroreg itself")
        direct.close()
        self.register(first, 1)
        self.wait_for(lambda: second.health().get("status") == "stopped", "n2 stops after the next registration")
        check([it.health()["status"] for it in (first, third)] == ["ok", "ok"], "the others go on")
        status, body = ask(second, "GET", "/subjects")
        check((status, json.loads(body)["error_code"]) == (503, 50303), "n2 responds 503 with 50303")
        backup = self.folder / "for-n2"
        self.command(first, "backup", backup)
        self.command(second, "restore", backup)
        self.wait_until_equal()
        self.cluster.end(signal.SIGTERM, "n3", "relay")
        self.cluster.end(signal.SIGTERM, "n3", "registry")
        subprocess.run([third.folder / "avroreg", "list", "--db", third.database, "subjects"], capture_output=True, check=True)
        with sqlite3.connect(third.database) as database:
            database.execute("UPDATE texts SET text = replace(text, 'number 2', 'number X') WHERE id = 2")
        database.close()
        self.cluster.start("n3", "registry")
        self.cluster.start("n3", "relay")
        prints = {it.name: self.command(it, "fingerprint").split()[1] for it in self.nodes}
        check(prints["n1"] == prints["n2"] != prints["n3"], "a changed text in n3's database shows in its fingerprint")
        self.command(third, "restore", backup)
        self.wait_until_equal()


NAMES = ("from_nothing", "clients", "adopt", "replace", "upgrade", "trim", "full_quota", "restore_all", "tampered", "lost_file", "limits",
         "slow_check", "foreign_entry", "full_disk", "links")  # fmt: skip


def main() -> None:
    end_on_sigterm()
    parser = argparse.ArgumentParser(description=(__doc__ or "").split("\n")[0])
    parser.add_argument("program", type=pathlib.Path)
    parser.add_argument("--relay", type=pathlib.Path, default=HERE / "avroreg-relay")
    parser.add_argument("names", nargs="*", metavar="NAME")
    options = parser.parse_args()
    if unknown := [name for name in options.names if name not in NAMES]:
        parser.error(f"there is no operation {', '.join(unknown)}. There are: {', '.join(NAMES)}")
    chosen = options.names or NAMES
    began = time.monotonic()
    with tempfile.TemporaryDirectory() as folder:
        trial = Operations(pathlib.Path(folder), options.program.resolve(), options.relay.resolve())
        try:
            for name in chosen:
                start = time.monotonic()
                print(f"{name}:", flush=True)
                getattr(trial, name)()
                print(f"  {time.monotonic() - start:.0f} s", flush=True)
        except (Wrong, KeyError) as fault:
            print(f"WRONG: {fault!r}")
            for log in sorted(pathlib.Path(folder).glob("cluster/n*/*.log")):
                print(f"{log.parent.name}/{log.name}: " + " | ".join(log.read_text().splitlines()[-4:]))
            sys.exit(1)
        finally:
            trial.tear_down()
    print(f"all {len(chosen)} operations passed, in {time.monotonic() - began:.0f} s")


if __name__ == "__main__":
    main()
