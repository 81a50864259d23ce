"""Settings, files, jobs, the lock, tasks and output."""

import io
import json
import os
import unittest
from dataclasses import replace

from support import RegistryCase

from avroreg_admin import arguments, files, hands, job, marking, output, places, program, settings
from avroreg_admin.output import BUSY, NO, STOPPED, Stop


class SettingsCase(RegistryCase):
    def read(self, text: str) -> settings.Settings:
        file = self.root / "settings"
        file.write_text(text)
        return settings.read(file)

    def test_missing_settings_have_defaults(self):
        self.assertEqual(self.read(""), settings.Settings("service", 8081, 7, 86400, "", 90, 64 << 20, True))
        self.assertEqual(settings.read(self.root / "none").port, 8081)

    def test_quotes_and_comments_are_read_as_by_systemd(self):
        found = self.read("# AVROREG_PORT=1\nAVROREG_PORT=9000\nAVROREG_AFTER_BACKUP='rsync -rt \"a b\"'\nAVROREG_ACT=no\n")
        self.assertEqual((found.port, found.after_backup, found.acts), (9000, 'rsync -rt "a b"', False))

    def test_wrong_values_are_refused(self):
        for text in ("PORT=0", "PORT=65536", "PORT=x", "PORT=-1", "KEEP=0", "KIND=other"):
            with self.assertRaises(Stop):
                self.read(f"AVROREG_{text}\n")

    def test_a_change_keeps_every_other_line(self):
        before = "# a\nAVROREG_PORT=1\nOTHER=2\nAVROREG_PORT=3\n"
        self.assertEqual(settings.changed(before, {"PORT": "9", "AFTER_BACKUP": "a 'b'"}),
                         "# a\nAVROREG_PORT=9\nOTHER=2\nAVROREG_AFTER_BACKUP='a '\"'\"'b'\"'\"''\n")

    def test_a_changed_value_is_read_back(self):
        for value in ("", "x", "a b", "it's", '"', "$HOME", "a\\b"):
            self.assertEqual(self.read(settings.changed("", {"AFTER_BACKUP": value})).after_backup, value)

    def test_names_of_other_folders_are_refused(self):
        for name in ("backup", "backup-x", "metrics", "admin", "Orders", "a/b", "", "..", "-a", "a" * 32):
            with self.assertRaises(Stop):
                settings.check_name(name)
        self.assertEqual(settings.check_name("orders-2"), "orders-2")


class FilesCase(RegistryCase):
    def test_a_file_is_replaced_as_a_whole(self):
        path = self.root / "x.json"
        (self.root / "x.json.new").write_text("of a killed run")
        files.write_json(path, {"a": 1}, 0o600)
        self.assertEqual((files.read_json(path), path.stat().st_mode & 0o777), ({"a": 1}, 0o600))
        self.assertFalse((self.root / "x.json.new").exists())

    def test_planted_links_are_not_followed(self):
        victim = self.root / "victim"
        victim.write_text("{}")
        (self.root / "x.json.new").symlink_to(victim)
        files.write_json(self.root / "x.json", {"a": 1})
        self.assertEqual(victim.read_text(), "{}")
        (self.root / "link").symlink_to(victim)
        self.assertRaises(OSError, files.read_json, self.root / "link")
        self.assertRaises(OSError, files.append_line, self.root / "link", "x")

    def test_a_missing_file_is_none(self):
        self.assertIsNone(files.read_json(self.root / "none"))


class HandsCase(unittest.TestCase):
    def setUp(self):
        self.hands = hands.Hands(os.geteuid(), os.getegid())

    def test_a_task_returns_its_result(self):
        self.assertEqual(hands.result_of(hands.perform(hands.name_of(marking.read), {"database": "/does/not/exist/registry.db"})), None)

    def test_a_function_without_the_decorator_is_refused(self):
        self.assertEqual(hands.perform("marking.path_of", {"database": "x"})["errno"], 1)
        self.assertEqual(hands.perform("program.fault_of", {"result": "x"})["errno"], 1)

    def test_errors_come_back(self):
        with self.assertRaises(Stop) as caught:
            hands.result_of({"stop": [NO, "no", "next"]})
        self.assertEqual((caught.exception.status, caught.exception.next_commands), (NO, ("next",)))
        with self.assertRaises(FileNotFoundError):
            hands.result_of({"errno": 2, "text": "missing", "file": "/x"})


class ResponsesCase(unittest.TestCase):
    def test_responses_are_taken_apart(self):
        stream = b'HTTP/1.1 200 OK\r\nContent-Length: 8\r\n\r\n{"id":1}HTTP/1.1 404 Not Found\r\nContent-Length: 4\r\n\r\nnull'
        self.assertEqual(program.responses_of(stream), [[200, {"id": 1}], [404, None]])
        with self.assertRaises(Stop):
            program.responses_of(b"garbage")


class JobCase(RegistryCase):
    def setUp(self):
        super().setUp()
        self.place = places.Local("default", self.root)
        self.done: list[str] = []
        self.output = output.Output(io.StringIO())
        self.job = job.new_job(self.place, "restore", "ops", {"x": 1})

    def step(self, name: str, **changes) -> job.Step:
        return replace(job.Step(name, lambda: self.done.append(name) or name, lambda: name in self.done, lambda: self.done.remove(name)), **changes)

    def fail(self, *_):
        raise Stop(NO, "broken")

    def test_steps_run_in_order_and_the_file_goes(self):
        job.advance(self.place, self.job, [self.step("a"), self.step("b")], self.output)
        self.assertEqual((self.done, job.open_job(self.place)), (["a", "b"], None))
        self.assertEqual(json.loads((self.state / "history.jsonl").read_text())["result"], "done")

    def test_continue_runs_only_what_is_not_done(self):
        with self.assertRaises(Stop) as caught:
            job.advance(self.place, self.job, [self.step("a"), self.step("b", effect=self.fail)], self.output)
        self.assertEqual((caught.exception.status, self.done), (STOPPED, ["a"]))
        job.advance(self.place, job.open_job(self.place), [self.step("a"), self.step("b")], self.output)
        self.assertEqual(self.done, ["a", "b"])

    def test_undo_takes_back_the_last_step_first(self):
        self.done += ["a", "b"]
        order = []
        steps = [self.step(name, undo=lambda name=name: order.append(name)) for name in "ab"]
        job.take_back(self.place, self.job, steps, self.output)
        self.assertEqual((order, job.open_job(self.place)), (["b", "a"], None))

    def test_after_the_point_of_no_return_nothing_is_undone(self):
        order = []
        with self.assertRaises(Stop):
            job.take_back(self.place, self.job, [self.step("a", undo=lambda: order.append("a")), self.step("b", undo=self.fail)], self.output)
        self.assertEqual((order, job.open_job(self.place).is_undone), ([], False))

    def test_what_is_being_undone_does_not_continue(self):
        with self.assertRaises(Stop):
            job.take_back(self.place, self.job, [self.step("a", undo=self.fail), self.step("b", undo=lambda: None)], self.output)
        with self.assertRaises(Stop):
            job.advance(self.place, job.open_job(self.place), [self.step("a")], self.output)

    def test_a_job_of_another_release_is_refused(self):
        self.write(self.place.job_file, {"version": 99})
        self.assertRaises(Stop, job.open_job, self.place)

    def test_an_open_job_stops_other_commands(self):
        self.assertRaises(Stop, job.refuse_open_job, self.place)

    def test_only_one_has_the_lock(self):
        with job.Lock(self.place) as lock:
            lock.say("ops runs restore")
            for is_shared in (False, True):
                with self.assertRaises(Stop) as caught:
                    job.Lock(self.place, is_shared).__enter__()
                self.assertEqual((caught.exception.status, caught.exception.message), (BUSY, "ops runs restore"))
        with job.Lock(self.place, True), job.Lock(self.place, True):
            with self.assertRaises(Stop):
                job.Lock(self.place).__enter__()


class OutputCase(unittest.TestCase):
    def test_names_of_clients_cannot_send_escapes(self):
        stream = io.StringIO()
        output.Output(stream).ok("a\x1b[2Jb\u202ec")
        self.assertEqual(stream.getvalue(), "ok    a\\x1b[2Jb\\x202ec\n")

    def test_a_problem_names_the_next_command(self):
        stream = io.StringIO()
        output.Output(stream).problem(output.Finding("disk-full", "0 MB free.", "Reads work.", ("avroreg-admin backups prune",)))
        self.assertEqual(stream.getvalue(), "PROBLEM disk-full  0 MB free. Reads work.\nnext  avroreg-admin backups prune\n")


class TableCase(unittest.TestCase):
    def test_each_present_command_has_its_module(self):
        for command in arguments.SUBCOMMANDS:
            if arguments.is_present(command) and command.name != "guard":
                parser = arguments.parser_of(command)
                self.assertTrue(parser.description, command.name)

    def test_names_are_unique(self):
        names = [command.name for command in arguments.SUBCOMMANDS]
        self.assertEqual(len(names), len(set(names)))


if __name__ == "__main__":
    unittest.main()
