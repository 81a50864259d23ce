"""A full disk with nobody there: `watch` alone brings reads back, and writes once there is space. Nothing acknowledged is lost.

It needs root, a mount of tmpfs, and nginx. A thread stands in for systemd: it starts the server again, and runs `watch` every
few seconds. The timer of packaging/systemd runs it each minute. So the tests count runs of `watch`, and measure no time.
"""

import http.client
import json
import os
import subprocess
import tempfile
import threading
import time
import unittest
import warnings
from pathlib import Path

import support  # noqa: F401
from local import forked, free_port

from avroreg_admin import pauses, places, seen

PERIOD = 3  # seconds between two runs of watch
PATIENCE = int(os.environ.get("AVROREG_PATIENCE", "600"))  # seconds: a test that waits longer hangs
DISK, FLOOR = "16m", 3 << 20
NGINX = """
daemon off; pid nginx.pid; user root; worker_processes 1; error_log error.log;
events {{ }}
http {{
    access_log off; client_body_temp_path b; proxy_temp_path p; fastcgi_temp_path f; uwsgi_temp_path u; scgi_temp_path s;
    include {root}/etc/nginx/conf.d/avroreg.conf;
}}
"""
SERVER = """
server {{
    listen 127.0.0.1:{front};
    location / {{
        set $paused "";
        if (-f {root}/run/avroreg/default/paused) {{ set $paused 1; }}
        if ($request_method != GET) {{ set $paused "${{paused}}1"; }}
        if ($paused = 11) {{ return 503 '{{"error_code":503,"message":"Writes are paused"}}'; }}
        proxy_pass http://127.0.0.1:{port};
    }}
}}
"""


def can_be_tried() -> bool:
    if not os.path.exists("/usr/sbin/nginx"):
        return False
    with tempfile.TemporaryDirectory() as folder:
        if os.geteuid() != 0 or subprocess.run(["mount", "-t", "tmpfs", "tmpfs", folder], capture_output=True).returncode != 0:
            return False
        subprocess.run(["umount", folder], check=True)
    return True


class Machine:
    """systemd's part: it starts the server again whenever it ended, and runs watch, unless a test holds the lock. It notes watch's messages."""

    def __init__(self, place: places.Local):
        self.place, self.messages, self.faults = place, [], []
        self.lock, self.is_over = threading.Lock(), threading.Event()
        self.runs = 0
        self.threads = [threading.Thread(target=part) for part in (self.restart, self.watch)]
        for thread in self.threads:
            thread.start()

    def restart(self) -> None:
        while not self.is_over.wait(0.1):
            if self.place.process() is None:
                self.place._admin("settle", EXIT_CODE="killed", EXIT_STATUS="KILL")
                try:
                    self.place.start()
                except places.Stop as stop:
                    self.faults.append(stop.message)

    def watch(self) -> None:
        while not self.is_over.wait(PERIOD):
            with self.lock:
                done = self.place._admin("watch")
                self.runs += 1
            self.messages += done.stderr.splitlines()
            if done.returncode != 0 or "Traceback" in done.stderr:
                self.faults.append(done.stderr)

    def end(self) -> None:
        self.is_over.set()
        for thread in self.threads:
            thread.join()


@unittest.skipUnless(can_be_tried(), "needs nginx, root and a mount of tmpfs")
class DiskCase(unittest.TestCase):
    def setUp(self):
        warnings.simplefilter("ignore", ResourceWarning)  # servers run on, as systemd's do
        self.root = Path(self.enterContext(tempfile.TemporaryDirectory(dir="/dev/shm", prefix="avroreg-disk-")))
        os.environ["AVROREG_ADMIN_LOCAL"] = str(self.root)
        self.place = places.place_of("default")
        self.place.folder.mkdir(parents=True)
        subprocess.run(["mount", "-t", "tmpfs", "-o", f"size={DISK},mode=700", "tmpfs", self.place.folder], check=True)
        self.addCleanup(subprocess.run, ["umount", "-l", self.place.folder])
        self.assertEqual(forked(["init", "--port", str(free_port())])[0], 0)
        with open(self.place.settings_file, "a") as settings:
            settings.write(f"AVROREG_FLOOR={FLOOR}\n")
        self.acknowledged: dict[int, str] = {}
        self.port = self.place.settings.port

    def start_nginx(self) -> None:
        self.port, folder = free_port(), self.root / "nginx"
        (self.root / "etc/nginx/conf.d").mkdir(parents=True)
        folder.mkdir()
        (self.root / "etc/nginx/conf.d/avroreg.conf").write_text(SERVER.format(root=self.root, front=self.port, port=self.place.settings.port))
        (folder / "nginx.conf").write_text(NGINX.format(root=self.root))
        nginx = subprocess.Popen(["/usr/sbin/nginx", "-p", folder, "-c", "nginx.conf", "-e", "error.log"])
        self.addCleanup(lambda: (nginx.terminate(), nginx.wait()))
        self.until(lambda: self.ask("GET", "/config")[0] == 200)

    def start_machine(self) -> None:
        self.machine = Machine(self.place)
        self.addCleanup(self.stop_server)
        self.addCleanup(self.machine.end)
        self.until(lambda: self.machine.runs)

    def stop_server(self) -> None:
        self.place.stop()

    def ask(self, method: str, path: str, body=None) -> tuple[int, object]:
        connection = http.client.HTTPConnection("127.0.0.1", self.port, timeout=PATIENCE)
        try:
            connection.request(method, path, None if body is None else json.dumps(body), {"Connection": "close"})
            response = connection.getresponse()
            return response.status, json.loads(response.read())
        except (OSError, ValueError, http.client.HTTPException):
            return 0, None
        finally:
            connection.close()

    def register(self, name: str, size: int = 1000) -> int:
        """Registers a schema as a client of nginx. Returns the status, and notes the acknowledged id."""
        text = json.dumps({"type": "enum", "name": name, "symbols": [], "doc": "x" * size})
        status, body = self.ask("POST", f"/subjects/{name}/versions", {"schema": text})
        if status == 200:
            self.acknowledged[body["id"]] = name
        return status

    def until(self, condition) -> None:
        end = time.monotonic() + PATIENCE
        while not condition():
            self.assertLess(time.monotonic(), end, "it doesn't come")
            time.sleep(0.05)

    def watched(self, cause, times: int = 1) -> None:
        """Causes something between two runs of watch, and waits for the next runs."""
        with self.machine.lock:
            cause()
            runs = self.machine.runs
        self.until(lambda: self.machine.runs >= runs + times)

    def reads(self) -> bool:
        return self.ask("GET", "/config")[0] == 200 and self.ask("GET", f"/schemas/ids/{max(self.acknowledged)}")[0] == 200

    def fill(self) -> Path:
        """Another program fills the disk within a moment."""
        filler = self.place.folder / "filler"
        with open(filler, "wb", buffering=0) as file:
            try:
                while file.write(bytes(1 << 16)):
                    pass
            except OSError:
                pass
        return filler

    def check_nothing_lost(self) -> None:
        for number, name in self.acknowledged.items():
            status, body = self.ask("GET", f"/schemas/ids/{number}")
            self.assertEqual((status, f'"{name}"' in str(body)), (200, True), name)

    def check_end(self) -> None:
        self.assertEqual(self.machine.faults, [])
        self.check_nothing_lost()

    def fail_the_store(self) -> None:
        self.filler = self.fill()
        self.until(lambda: self.register("b", 100_000) == 500)

    def test_a_disk_that_is_full_at_once_behind_nginx(self):
        self.start_nginx()
        for number in range(20):
            self.assertEqual(self.register(f"a{number}"), 200)
        self.start_machine()
        self.watched(self.fail_the_store)
        self.assertEqual(len(seen.recent_of(self.place).restarts), 1)
        self.assertEqual(pauses.of_watch(self.place).by, "watch")
        self.until(self.reads)
        self.assertEqual(self.register("c"), 503)
        self.assertTrue(self.reads())
        self.assertIn("PROBLEM disk-full", forked(["doctor"])[1])
        self.watched(self.filler.unlink)
        self.assertEqual(self.register("d"), 200)
        self.check_end()
        self.assertEqual(len(seen.recent_of(self.place).restarts), 1)
        self.assertIn('avroreg_writes_paused{reason="disk-full"} 0', self.place.metrics_file.read_text())
        self.assertNotIn("PROBLEM store-failed", forked(["doctor"])[1])

    def test_a_disk_that_fills_slowly_never_fails_the_store(self):
        self.start_nginx()
        self.start_machine()
        for number in range(20):
            self.assertEqual(self.register(f"slow{number}"), 200)
        self.watched(self.fill_below_the_floor)
        self.assertEqual(self.register("late", 10), 503)
        self.assertEqual(seen.recent_of(self.place).restarts, [])
        self.assertTrue(self.reads())
        self.check_end()

    def fill_below_the_floor(self) -> None:
        with open(self.place.folder / "filler", "wb") as filler:
            filler.write(bytes(self.free() - FLOOR + (1 << 20)))
        self.assertEqual(self.register("between"), 200)

    def free(self) -> int:
        disk = os.statvfs(self.place.folder)
        return disk.f_bavail * disk.f_frsize

    def test_without_nginx_it_restarts_once_there_is_space(self):
        for number in range(20):
            self.assertEqual(self.register(f"a{number}"), 200)
        self.start_machine()
        self.watched(self.fail_the_store, 2)
        self.assertEqual(self.ask("GET", "/config")[1].get("error_code"), 50001)
        self.assertEqual(seen.recent_of(self.place).restarts, [])
        self.watched(self.filler.unlink)
        self.until(lambda: self.register("d") == 200)
        self.assertEqual(len(seen.recent_of(self.place).restarts), 1)
        self.check_end()

    def test_a_bad_disk_is_not_restarted_for_ever(self):
        """Nothing keeps writes out, and each one fails again."""
        for number in range(5):
            self.assertEqual(self.register(f"a{number}"), 200)
        self.start_nginx()
        self.start_machine()
        self.fill()
        self.port = self.place.settings.port  # a program of this machine goes past nginx
        for _ in range(3):
            self.watched(lambda: self.until(lambda: self.register("b", 100_000) == 500))
            self.until(lambda: self.ask("GET", "/config")[0] == 200)
        self.watched(lambda: self.until(lambda: self.register("b", 100_000) == 500), 2)
        self.assertEqual(len(seen.recent_of(self.place).restarts), 3)
        self.assertIn("PROBLEM store-failed", forked(["doctor"])[1])


if __name__ == "__main__":
    unittest.main()
