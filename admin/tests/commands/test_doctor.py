"""Faults, made one by one: `doctor` names each one and the next command, and that command leads back to service."""

import json
import os
import re
import shutil
import signal
import socket
import subprocess
import sys
import time
import unittest
from pathlib import Path

from support import CommandCase

from avroreg_admin import job, marking, places, wal

NEXT = re.compile(r"^next +(?:.*: )?avroreg-admin (.+)$", re.MULTILINE)


class ServedCase(CommandCase):
    def setUp(self):
        super().setUp()
        self.registry.reset(is_served=True)
        self.written = [self.registry.register(f"w{number}") for number in range(5)]
        self.run_command("watch")

    def kill(self) -> None:
        """As the kernel kills it; systemd notes the end."""
        pid = self.place.process()
        os.kill(pid, signal.SIGKILL)
        while self.place.process():
            time.sleep(0.01)
        self.place.pid_file.unlink()
        self.place._admin("settle", EXIT_CODE="killed", EXIT_STATUS="KILL")

    def finding(self, name: str) -> list[str]:
        """Checks that `doctor` names this problem first. Returns the commands that it names."""
        printed = self.run_command("doctor", status=1)
        self.assertEqual(re.search(r"^PROBLEM ([a-z-]+)", printed, re.MULTILINE)[1], name, printed)
        self.assertIn(name, self.run_command("status", status=1))
        return NEXT.findall(printed)

    def follow(self, name: str) -> str:
        """Runs the first command that `doctor` names."""
        return self.run_command(*self.finding(name)[0].replace("TEXT", "tested").split(), "--yes")

    def served(self, lost: bool = False) -> None:
        """The registry serves, nothing is wrong, and no acknowledged write is gone, unless the problem loses some."""
        self.assertEqual(self.place.ask("GET", "/config")[0], 200)
        self.assertEqual([line for line in self.run_command("doctor").splitlines() if line.startswith("PROBLEM")], [])
        found = [self.place.ask("GET", f"/schemas/ids/{number}")[1].get("schema", "") for number in self.written]
        self.assertEqual([f'"w{number}"' in text for number, text in enumerate(found)], [not lost] * 5, found)


class FaultCase(ServedCase):
    """Faults of a registry that was stopped or killed."""

    def test_a_healthy_registry(self):
        self.run_command("backup")
        self.assertIn("ok    no problem", self.run_command("doctor"))
        self.assertIn("answers in", self.run_command("status"))
        self.assertEqual([found["id"] for found in json.loads(self.run_command("doctor", "--json"))], ["same-disk"])
        shown = json.loads(self.run_command("status", "--all", "--json"))
        self.assertEqual((shown["registry"], shown["problems"]), ("default", []))

    def test_a_missing_file(self):
        self.place.stop()
        self.place.database.unlink()
        self.follow("file-missing")
        self.served(lost=True)

    def test_a_disk_that_is_not_mounted(self):
        self.place.stop()
        aside = self.place.folder.with_name("aside")
        self.place.folder.rename(aside)
        self.place.folder.mkdir()
        self.assertIn("restore", self.finding("disk-not-mounted"))
        self.place.folder.rmdir()
        aside.rename(self.place.folder)
        self.place.start()
        self.served()

    def test_another_file(self):
        self.place.stop()
        shutil.copyfile(self.place.database, self.registry.root / "copy")
        os.replace(self.registry.root / "copy", self.place.database)
        self.follow("file-replaced")
        self.served()

    def test_a_missing_log(self):
        self.kill()
        self.place.log.unlink()
        self.assertIn("restore", self.finding("log-missing"))
        self.run_command("restore", "--newest", "--yes")
        self.served(lost=True)

    def test_a_damaged_header_is_repaired_from_the_saved_one(self):
        self.run_command("watch")
        self.kill()
        log = bytearray(self.place.log.read_bytes())
        log[9] ^= 4
        self.place.log.write_bytes(log)
        self.assertEqual(self.finding("log-damaged")[0], "repair")
        self.follow("log-damaged")
        self.served()
        kept = next(self.place.jobs.glob("damaged-*/registry.db-wal"))
        self.assertEqual(kept.read_bytes(), bytes(log))

    def test_without_a_saved_header_repair_refuses(self):
        self.place.seen_file.unlink()
        self.kill()
        log = bytearray(self.place.log.read_bytes())
        log[9] ^= 4
        self.place.log.write_bytes(log)
        self.finding("log-damaged")
        self.refused("repair", "--yes", text="avroreg-admin restore")
        self.assertEqual(self.place.log.read_bytes(), bytes(log))

    def test_a_damaged_frame_is_no_work_for_repair(self):
        self.run_command("watch")
        self.kill()
        log = bytearray(self.place.log.read_bytes())
        log[32 + (24 + wal.page_bytes_of(log[:32])) * 2 + 100] ^= 1
        self.place.log.write_bytes(log)
        self.assertEqual(self.finding("log-damaged")[0], "restore")
        self.refused("repair", "--yes", text="a part after it is damaged")
        self.run_command("restore", "--newest", "--yes")
        self.served(lost=True)

    def test_a_second_hard_link(self):
        self.place.stop()
        os.link(self.place.database, self.place.folder / "second")
        self.follow("cannot-open")
        self.assertEqual(self.place.database.stat().st_nlink, 1)
        self.served()

    @unittest.skipIf(os.geteuid() != 0, "only root gives files away")
    def test_another_owner(self):
        self.place.stop()
        os.chown(self.place.database, 65534, 65534)
        self.follow("cannot-open")
        self.assertEqual(self.place.database.stat().st_uid, os.geteuid())
        self.served()

    def test_a_wrong_mode(self):
        self.place.stop()
        for file in (self.place.database, self.place.log):
            file.chmod(0o444)
        self.run_command("repair")
        self.assertEqual([file.stat().st_mode & 0o777 for file in (self.place.database, self.place.log)], [0o600, 0o600])
        self.served()
        self.place.stop()
        self.refused("repair", text="there is nothing to repair")

    def test_a_certificate_that_ends(self):
        folder = self.registry.root / "etc/nginx/conf.d"
        folder.mkdir(parents=True)
        made = subprocess.run(["openssl", "req", "-x509", "-newkey", "rsa:2048", "-nodes", "-days", "10", "-subj", "/CN=x", "-keyout", folder / "key",
                               "-out", folder / "certificate"], capture_output=True)
        self.assertEqual(made.returncode, 0)
        (folder / "avroreg.conf").write_text(f"1 /run/avroreg/default/paused;\n  ssl_certificate {folder}/certificate;\n")
        self.finding("certificate")
        self.run_command("watch")
        end = float(re.search(r"^avroreg_certificate_expiry_timestamp_seconds (.*)", self.place.metrics_file.read_text(), re.MULTILINE)[1])
        self.assertAlmostEqual(end, time.time() + 10 * 86400, delta=60)

    @unittest.skipIf(os.geteuid() != 0, "only root gives files away")
    def test_root_gives_no_linked_file_away(self):
        self.place.stop()
        victim = self.registry.root / "victim"
        victim.write_text("secret")
        os.chown(victim, 65534, 65534)
        self.place.database.rename(self.place.folder / "aside")
        os.link(victim, self.place.database)
        marking.put(str(self.place.database), self.place.registry["place"])  # the registry's user writes the mark
        self.refused("repair", "--yes", text="root doesn't give it away")
        self.assertEqual(victim.stat().st_uid, 65534)

    def test_a_journal_of_another_program(self):
        self.place.stop()
        Path(f"{self.place.database}-journal").write_text("x")
        self.finding("cannot-open")
        self.refused("repair", "--yes", text="avroreg-admin restore")

    def test_a_taken_port(self):
        self.place.stop()
        with socket.socket() as other:
            other.setsockopt(socket.SOL_SOCKET, socket.SO_REUSEADDR, 1)
            other.bind(("127.0.0.1", self.place.settings.port))
            other.listen()
            self.finding("port-taken")
            self.assertRegex(self.run_command("doctor", status=1), r"python\S* \(pid \d+\) listens")
        self.place.start()
        self.served()

    def test_an_unfinished_command(self):
        job.new_job(self.place, "restore", "ops", {"source": "/x", "name": "x", "since": None, "greatest": None, "count": None,
                                                   "was_running": True, "was_paused": False, "is_new": False})
        self.assertEqual(self.finding("unfinished"), ["continue", "undo"])
        self.run_command("undo", "--yes")
        self.served()

    def test_a_stopped_server(self):
        self.place.stop()
        self.finding("stopped")
        self.place.start()
        self.served()


class RescueCase(ServedCase):
    """Files that were removed while avroreg runs."""

    def remove(self) -> None:
        for file in (self.place.database, self.place.log):
            file.unlink()
        self.written = [*self.written[:4], self.registry.register("w4")]  # one more write, into files without a name

    def test_removed_files_are_rescued(self):
        self.remove()
        self.assertEqual(self.finding("removed-while-running"), ["rescue"])
        self.assertIn("Nothing was lost", self.run_command("rescue", "--yes") and next(self.place.state.glob("*/difference.txt")).read_text())
        self.served()

    def test_a_replaced_file_is_rescued(self):
        shutil.copyfile(self.place.database, self.registry.root / "copy")
        os.replace(self.registry.root / "copy", self.place.database)
        self.follow("removed-while-running")
        self.served()

    def test_a_removed_log_is_rescued(self):
        self.run_command("watch")
        self.place.log.unlink()
        self.follow("removed-while-running")
        self.served()

    def test_a_header_that_is_damaged_while_avroreg_runs(self):
        self.run_command("watch")
        with open(self.place.log, "r+b") as log:
            log.seek(9)
            log.write(b"\xff")
        self.follow("log-damaged")
        self.served()

    def test_a_stop_saves_the_copy_and_the_guard_names_it(self):
        self.remove()
        self.place.stop()
        self.assertEqual(self.finding("file-missing")[0], "rescue")
        self.follow("file-missing")
        self.served()

    def test_nothing_to_rescue(self):
        self.refused("rescue", "--yes", text="there is nothing to rescue")
        self.place.stop()
        self.refused("rescue", "--yes", text="avroreg doesn't run")

    def test_a_write_between_copy_and_stop_is_impossible(self):
        """From the copy on, the server is suspended until it ends."""
        self.remove()
        pid, states = self.place.process(), []
        script = Path(places.__file__).resolve().parent.parent / "avroreg-admin"
        with subprocess.Popen([sys.executable, "-I", script, "rescue", "--yes"], stdin=subprocess.DEVNULL, stdout=subprocess.DEVNULL) as rescue:
            while rescue.poll() is None:
                try:
                    state = Path(f"/proc/{pid}/stat").read_text().rpartition(")")[2].split()[0]
                except OSError:
                    state = "gone"
                if not states or states[-1] != state:
                    states.append(state)
                time.sleep(0.001)
        self.assertEqual(rescue.returncode, 0)
        after = "".join(states[states.index("T"):])
        self.assertRegex(after, r"^TR?(Z|X|gone)+$")  # R: it ends
        self.served()

    def test_after_an_error_the_server_goes_on(self):
        self.remove()
        os.environ["PATH"], before = "/nowhere", os.environ["PATH"]
        try:
            self.run_command("rescue", "--yes", status=2)
        finally:
            os.environ["PATH"] = before
        self.assertEqual(self.place.ask("GET", "/config")[0], 200)
        self.follow("removed-while-running")
        self.served()


del CommandCase, ServedCase

if __name__ == "__main__":
    unittest.main()
