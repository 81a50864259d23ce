"""`watch` acts on a server that doesn't respond, and leaves it alone while a command has the lock or is unfinished."""

import json
import os
import shutil
import signal
import time
import unittest
from pathlib import Path

from support import CommandCase, free_port

from avroreg_admin import facts, job, marking, pauses, places, removed, seen, server, watch

FACTS = {"source": "/x", "name": "x", "since": None, "greatest": None, "count": None, "was_running": True, "was_paused": False, "is_new": False}


def at_once() -> None:
    """In the fork of a command: short waits."""
    facts.probe.__defaults__ = (0.5,)
    watch.SUSPENDED_SECONDS = 0


def busy() -> None:
    """In the fork of a command: the server has computed since long ago, without a response."""
    facts.probe.__defaults__ = (0.5,)
    server.usage_of = lambda *_: server.Usage(processor=time.monotonic())
    watch.front.is_on = lambda _: True


class ActsCase(CommandCase):
    def setUp(self):
        super().setUp()
        self.registry.reset(is_served=True)
        self.run_command("watch")
        self.pid = self.place.process()
        os.kill(self.pid, signal.SIGSTOP)
        self.addCleanup(self.go_on)

    def go_on(self) -> None:
        if pid := self.place.process():
            os.kill(pid, signal.SIGCONT)

    def state(self) -> str:
        with open(f"/proc/{self.pid}/stat") as file:
            return file.read().rpartition(")")[2].split()[0]

    def watch(self, times: int = 2, prepare=at_once) -> str:
        return "".join(self.run_command("watch", prepare=prepare) for _ in range(times))

    def test_a_suspended_server_goes_on(self):
        self.assertIn("was suspended, and goes on", self.watch())
        self.assertEqual(self.place.ask("GET", "/config")[0], 200)
        self.assertAlmostEqual(json.loads(self.place.seen_file.read_text())["woken"], time.time(), delta=60)

    def test_a_copy_from_before_it_went_on_may_lack_writes(self):
        self.go_on()
        self.place.stop()
        self.place.database.unlink()
        for age, is_trusted in ((60, True), (-60, False)):
            copied = self.place.folder / time.strftime(removed.COPY_NAME, time.gmtime(time.time() + age))
            shutil.copyfile(self.registry.template / "var/lib/avroreg/registry.db", copied)
            marking.note_rescued(str(self.place.database), str(copied))
            self.place.seen_file.write_text(json.dumps({"woken": time.time()}))
            if is_trusted:
                self.assertIn(f"copy    {copied}", self.run_command("rescue", "--dry-run"))
            else:
                self.refused("rescue", "--yes", text=f"restore --file {copied}")

    def test_the_sandbox_may_write_what_watch_writes(self):
        """The registry's folder is read-only for the unit."""
        unit = (Path(__file__).resolve().parents[3] / "packaging/systemd/avroreg-watch.service").read_text()
        self.assertIn("ReadOnlyPaths=-/var/lib/avroreg\n", unit)
        before = {file: file.stat().st_mtime_ns for file in [self.place.folder, *self.place.folder.rglob("*")]}
        self.watch()
        self.assertEqual({file: file.stat().st_mtime_ns for file in [self.place.folder, *self.place.folder.rglob("*")]}, before)

    def test_a_suspended_server_is_left_to_the_command_that_has_the_lock(self):
        with job.Lock(self.place):
            self.assertEqual(self.watch(), "")
        self.assertEqual(self.state(), "T")
        with job.Lock(self.place, is_shared=True):
            self.assertIn("goes on", self.watch(1))

    def test_an_unfinished_command_is_left_alone(self):
        job.new_job(self.place, "restore", "ops", FACTS)
        self.assertEqual(self.watch(), "")
        self.assertEqual(self.state(), "T")
        self.assertIn("avroreg_job_unfinished 1", self.place.metrics_file.read_text())

    def test_it_only_measures_if_it_may_not_act(self):
        with open(self.place.settings_file, "a") as settings:
            settings.write("AVROREG_ACT=no\n")
        self.assertEqual(self.watch(), "")
        self.assertEqual(self.state(), "T")
        self.assertIn("avroreg_up 0", self.place.metrics_file.read_text())

    def test_a_check_that_blocks_is_ended(self):
        with open(self.place.settings_file, "a") as settings:
            settings.write("AVROREG_CHECK_LIMIT=1\n")
        self.watch(1, busy)
        time.sleep(1.2)
        self.assertIn("avroreg restarts", self.watch(1, busy))
        self.assertIsNone(self.place.process())
        self.assertEqual(len(seen.recent_of(self.place).restarts), 1)

    def test_a_pause_is_kept_until_there_is_a_response(self):
        pauses.begin(str(pauses.watch_file(self.place)), pauses.STORE_FAILED)
        self.watch(1)
        self.assertIsNotNone(pauses.of_watch(self.place))
        self.go_on()
        self.assertIn("writes resume", self.watch(1))
        self.assertIsNone(pauses.of_watch(self.place))

    def test_a_person_pauses_writes(self):
        self.go_on()
        self.refused("pause", text="nginx isn't in front")
        configuration = self.registry.root / "etc/nginx/conf.d/avroreg.conf"
        configuration.parent.mkdir(parents=True)
        configuration.write_text("1 /run/avroreg/default/paused;")
        self.run_command("pause", "--reason", "a move")
        self.assertIn("(a move)", self.run_command("doctor"))
        self.watch(1)
        self.assertTrue(self.place.paused_file.exists())
        self.run_command("resume")
        self.assertFalse(self.place.paused_file.exists())

    def test_read_only(self):
        self.go_on()
        self.run_command("read-only", "on")
        self.assertEqual(self.place.ask("PUT", "/config", {"compatibility": "FULL"})[1]["error_code"], 42205)
        self.assertIn("warn  read-only", self.run_command("doctor"))
        self.run_command("read-only", "off")
        self.assertEqual(self.place.ask("PUT", "/config", {"compatibility": "FULL"})[0], 200)

    def code_of_write(self, subject: str) -> int | None:
        status, body = self.place.ask("PUT", f"/config/{subject}", {"compatibility": "FULL"})
        return None if status == 200 else body["error_code"]

    def test_read_only_for_subjects_with_a_mode_of_their_own(self):
        self.go_on()
        self.registry.write("PUT", "/mode/s-b", {"mode": "READWRITE"})
        self.run_command("read-only", "on")
        self.assertEqual([self.code_of_write(name) for name in ("s-b", "s-d")], [None, 42205])
        self.run_command("read-only", "on", "--all-subjects", "--dry-run")
        self.assertIsNone(self.code_of_write("s-b"))
        self.assertIn("also of 1 subjects", self.run_command("read-only", "on", "--all-subjects"))
        self.run_command("read-only", "on", "--all-subjects")  # again: it forgets none
        self.assertEqual([self.code_of_write(name) for name in ("s-b", "s-d")], [42205, 42205])
        self.run_command("read-only", "off")
        self.assertEqual([self.code_of_write(name) for name in ("s-b", "s-c", "s-d")], [None, 42205, None])
        self.assertNotIn("also of", self.run_command("read-only", "off"))


class SecondCase(CommandCase):
    """A further registry has its own files, its own label, and its own commands."""

    def test_a_second_registry(self):
        self.registry.reset(is_served=True)
        self.run_command("init", "--registry", "orders", "--port", str(free_port()))
        second = places.place_of("orders")
        self.addCleanup(second.stop)
        self.run_command("watch")
        self.run_command("watch", "--registry", "orders")
        self.assertIn("\navroreg_subjects 5\n", self.place.metrics_file.read_text())
        self.assertIn('\navroreg_subjects{registry="orders"} 0\n', second.metrics_file.read_text())
        self.assertEqual([json.loads(place.seen_file.read_text())["greatest_id"] for place in (self.place, second)], [6, 0])
        second.database.unlink()
        printed = self.run_command("doctor", "--registry", "orders", status=1)
        self.assertIn("next  avroreg-admin rescue --registry orders", printed)
        self.assertNotIn("PROBLEM", self.run_command("doctor", "--registry", "default"))
        self.assertIn("PROBLEM removed-while-running", self.run_command("status", "--all", status=1))
        self.run_command("rescue", "--registry", "orders", "--yes")
        self.assertNotIn("PROBLEM", self.run_command("doctor", "--registry", "orders"))


del CommandCase

if __name__ == "__main__":
    unittest.main()
