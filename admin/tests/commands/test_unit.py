"""What a unit runs around the server, and the commands that the guard names: init, accept, port, continue and undo."""

import json
import os
import shutil
import socket
import time
import unittest
import unittest.mock

from support import CommandCase, free_port

from avroreg_admin import init, job, marking, program
from avroreg_admin.output import Stop


class UnitCase(CommandCase):
    def mark(self) -> dict:
        return json.loads(self.place.mark_file.read_text())

    def kill(self) -> None:
        """Kills the server, as the kernel would: nothing runs after it."""
        self.registry.kill_servers()
        self.place.launch_file.unlink()

    def refusal(self) -> str:
        with self.assertRaises(Stop) as caught:
            self.place.start()
        return caught.exception.message

    def test_the_mark_follows_the_server(self):
        self.registry.reset(is_served=True)
        found = self.mark()
        self.assertEqual((found["state"], found["log"], found["pid"], found["inode"]), ("running", True, self.place.process(), os.stat(self.place.database).st_ino))
        self.assertEqual(self.place.mark_file.stat().st_mode & 0o777, 0o600)
        self.place.stop()
        found = self.mark()
        self.assertEqual((found["state"], found["log"], found["size"]), ("stopped", True, self.place.database.stat().st_size))
        self.place.start()
        self.assertEqual(self.mark()["state"], "running")

    def test_after_a_kill_it_starts_with_every_write(self):
        self.registry.reset(is_served=True)
        number = self.registry.register("killed")
        self.kill()
        self.place.start()
        self.assertEqual(self.registry.register("killed"), number)

    def test_a_log_that_was_removed_after_a_kill_is_missed(self):
        self.registry.reset(is_served=True)
        self.registry.register("lost")
        self.kill()
        os.unlink(self.place.log)
        self.assertIn("log-missing", self.refusal())
        self.assertEqual(self.mark()["state"], "running")  # a refused start changes nothing

    def test_a_list_on_the_stopped_file_is_no_loss(self):
        self.registry.reset()
        os.unlink(self.place.mark_file)
        marking.put(str(self.place.database), self.place.registry["place"])
        self.place.hands(program.listing, program=self.place.program, database=self.place.database, what="versions")
        self.assertFalse(self.place.log.exists())
        self.place.start()

    def test_a_server_that_ends_by_itself_leaves_no_log(self):
        self.registry.reset()
        with socket.create_server(("127.0.0.1", self.place.settings.port)):
            self.refusal()
        self.assertFalse(self.mark()["log"])
        self.place.start()

    def test_removed_files_are_saved_before_the_stop(self):
        self.registry.reset(is_served=True)
        for path in (self.place.database, self.place.log):
            os.unlink(path)
        self.registry.register("after")
        self.place.stop()
        self.assertIn("avroreg-admin rescue", self.refusal())
        self.run_command("rescue", "--yes")
        self.assertIn("s-after", self.place.ask("GET", "/subjects")[1])

    def test_a_full_disk_at_the_start_does_not_end_the_server(self):
        self.assertTrue(marking.is_full(OSError(28, "")))
        self.assertFalse(marking.is_full(OSError(5, "")))


class InitCase(CommandCase):
    def empty(self) -> int:
        """A machine without a registry, and a free port."""
        self.registry.kill_servers()
        shutil.rmtree(self.registry.root)
        self.registry.root.mkdir()
        return free_port()

    def test_it_makes_an_empty_registry_and_serves_it(self):
        port = self.empty()
        printed = self.run_command("init", "--port", str(port))
        self.assertIn(f"avroreg is up: http://127.0.0.1:{port}", printed)
        self.assertEqual(self.place.ask("GET", "/subjects"), (200, []))
        for file in (self.place.database, self.place.mark_file):
            self.assertEqual(file.stat().st_mode & 0o777, 0o600)
        self.refused("init", "--port", str(free_port()), text="already")

    def test_a_dry_run_changes_nothing(self):
        port = self.empty()
        self.run_command("init", "--port", str(port), "--dry-run")
        self.assertEqual(list(self.registry.root.rglob("*")), [])

    def test_a_taken_port_is_refused_with_its_program(self):
        port = self.empty()
        with socket.create_server(("127.0.0.1", port)) as taken:  # the command runs in a fork, which has the socket too
            self.refused("init", "--port", str(port), text=f"(pid {os.getpid()}) listens on port {port}", prepare=taken.close)
        self.assertFalse(self.place.folder.exists())

    def test_backups_of_a_lost_registry_are_restored_instead(self):
        port = self.empty()
        self.place.backups.mkdir(parents=True)
        (self.place.backups / "registry-20260101T000000Z.db").write_bytes(b"x")
        self.refused("init", "--port", str(port), text="avroreg-admin restore")

    def test_a_file_can_be_adopted(self):
        port = self.empty()
        source = self.registry.template / "var/lib/avroreg/registry.db"
        self.run_command("init", "--port", str(port), "--adopt", str(source))
        self.assertEqual(self.place.ask("GET", "/subjects")[1], ["s-b", "s-c", "s-d", "s-e", "s-f"])
        self.assertTrue(source.exists())

    def test_a_killed_init_continues(self):
        port = self.empty()
        self.run_command("init", "--port", str(port), status=9, prepare=lambda: setattr(init, "note_registry", lambda _: os._exit(9)))
        self.refused("init", "--port", str(free_port()), text="avroreg-admin continue")
        self.run_command("continue")
        self.assertEqual(self.place.ask("GET", "/subjects"), (200, []))
        self.assertIsNone(job.open_job(self.place))

    def test_undo_takes_a_new_registry_back(self):
        port = self.empty()
        self.run_command("init", "--port", str(port), status=9, prepare=lambda: setattr(self.place.__class__, "enable", lambda _: os._exit(9)))
        self.run_command("undo", "--yes")
        self.assertIsNone(self.place.process())
        self.assertIsNone(self.place.registry)
        self.assertFalse(self.place.database.exists())
        self.run_command("init", "--port", str(port))


class AcceptCase(CommandCase):
    def setUp(self):
        super().setUp()
        self.registry.reset()

    def see(self, number: int) -> None:
        self.place.metrics.mkdir(exist_ok=True)
        (self.place.metrics / "seen.json").write_text(json.dumps({"greatest_id": number, "time": time.time()}))

    def test_a_file_without_a_fault_needs_no_accept(self):
        self.refused("accept", "--reason", "x", "--yes", text="the guard refuses nothing")
        self.place.start()
        self.refused("accept", "--reason", "x", "--yes", text="avroreg runs")

    def test_a_copy_is_served_and_no_id_gets_a_second_schema(self):
        self.place.database.rename(self.place.folder / "other")
        shutil.copyfile(self.place.folder / "other", self.place.database)
        self.see(8)
        self.run_command("accept", "--reason", "a copy", "--yes")
        self.assertGreater(self.registry.register("new"), 8)
        self.assertIn("a copy", (self.place.state / "history.jsonl").read_text())

    def test_without_a_source_of_lost_ids_it_asks(self):
        self.place.database.rename(self.place.folder / "other")
        shutil.copyfile(self.place.folder / "other", self.place.database)
        self.refused("accept", "--reason", "x", "--yes", text="--greatest-id")

    def test_a_lost_log_uses_up_the_ids_that_it_can_have_had(self):
        os.unlink(self.place.log)
        self.run_command("accept", "--reason", "x", "--yes")
        self.assertGreater(self.registry.register("new"), 1000)

    def test_a_lost_note_of_root_is_written_again(self):
        place_id = self.place.registry["place"]
        os.unlink(self.place.registry_file)
        self.run_command("accept", "--reason", "x", "--yes")
        self.assertEqual(self.place.registry["place"], place_id)
        self.assertEqual(self.registry.register("new"), 7)

    def test_a_missing_file_is_not_accepted(self):
        os.unlink(self.place.database)
        self.refused("accept", "--reason", "x", "--yes", text="file-missing")


class NodeCase(CommandCase):
    def test_commands_that_would_change_one_node_only_are_refused(self):
        self.registry.reset(is_served=True)
        with open(self.place.settings_file, "a") as file:
            file.write("AVROREG_KIND=node\n")
        for words in (("accept", "--reason", "x"), ("lost-ids", "--count", "1"), ("read-only", "on"), ("restore",)):
            self.refused(*words, "--yes", text="not the others")
        self.run_command("backup")

    def test_a_file_that_another_program_put_there_is_marked(self):
        self.registry.reset()
        self.place.database.rename(self.place.folder / "other")
        shutil.copyfile(self.place.folder / "other", self.place.database)
        self.run_command("placed")
        self.place.start()
        self.refused("placed", text="avroreg runs")


class PortCase(CommandCase):
    def setUp(self):
        super().setUp()
        self.registry.reset(is_served=True)
        self.port = free_port()

    def test_it_serves_on_the_new_port(self):
        folder = self.registry.root / "etc/nginx/conf.d"
        folder.mkdir(parents=True)
        (folder / "avroreg.conf").write_text(f"upstream a {{\n    server 127.0.0.1:{self.place.settings.port};\n}}\n")
        self.run_command("port", str(self.port), "--yes")
        self.assertEqual((self.place.settings.port, self.place.ask("GET", "/config")[0]), (self.port, 200))
        self.assertIn(f"server 127.0.0.1:{self.port};", (folder / "avroreg.conf").read_text())

    def test_a_taken_port_is_refused(self):
        with socket.create_server(("127.0.0.1", self.port)):
            self.refused("port", str(self.port), "--yes", text=f"listens on port {self.port}")
        self.assertEqual(self.place.ask("GET", "/config")[0], 200)

    def test_if_it_fails_the_old_port_is_back(self):
        old = self.place.settings.port
        broken = self.script("other-program", f'case "$*" in *{self.port}) exit 2;; esac; exec {self.place.program} "$@"')
        with unittest.mock.patch.dict(os.environ, {"AVROREG": broken}):
            self.refused("port", str(self.port), "--yes", text="the old port is back", status=2)
        self.assertEqual((self.place.settings.port, self.place.ask("GET", "/config")[0]), (old, 200))
        self.assertIsNone(job.open_job(self.place))

    def test_a_killed_change_continues(self):
        self.run_command("port", str(self.port), "--yes", status=9, prepare=lambda: setattr(self.place.__class__, "start", lambda _: os._exit(9)))
        self.run_command("continue")
        self.assertEqual((self.place.settings.port, self.place.ask("GET", "/config")[0]), (self.port, 200))

    def test_a_killed_change_is_undone(self):
        old = self.place.settings.port
        self.run_command("port", str(self.port), "--yes", status=9, prepare=lambda: setattr(self.place.__class__, "start", lambda _: os._exit(9)))
        self.run_command("undo", "--yes")
        self.assertEqual((self.place.settings.port, self.place.ask("GET", "/config")[0]), (old, 200))


if __name__ == "__main__":
    unittest.main()
