"""`copy-to`, to a stand-in for Confluent's registry: everything arrives, also after a kill at any request."""

import os
import unittest
from unittest import mock

from support import CommandCase, state_of

from importing import Registry as Importing


class CopyCase(CommandCase):
    def setUp(self):
        super().setUp()
        self.registry.reset(is_served=True)
        self.there = Importing()
        self.addCleanup(self.there.close)

    def arrived(self) -> None:
        """The target has each version with its id, its deletion and its schema, each level, and each unused id."""
        here = state_of(self.place.database)
        versions = {(name, int(number)): (int(identifier), deleted == "true") for name, number, identifier, deleted in here["versions"]}
        found = {(name, number): (identifier, deleted) for name, subject in self.there.subjects.items() for number, (identifier, _, deleted) in subject.items()}
        unused = {key: value for key, value in found.items() if key[0] == "avroreg-unused-ids"}
        self.assertEqual({key: value for key, value in found.items() if key not in unused}, versions)
        used = {identifier for identifier, _ in versions.values()}
        self.assertEqual(sorted(unused.values()), sorted((int(number), True) for number, _ in here["schemas"] if int(number) not in used))
        self.assertEqual(self.there.levels, {"": "NONE", "s-b": "FULL"})

    def test_a_first_copy_and_a_second_one(self):
        self.registry.write("DELETE", "/subjects/s-a?permanent=true")
        printed = self.run_command("copy-to", self.there.url, "--yes")
        self.assertIn("6 versions, 1 deletions and 2 levels sent", printed)
        self.assertIn("read back, equal", printed)
        self.arrived()
        self.assertEqual(self.there.modes[""], "IMPORT")
        self.assertEqual(self.place.ask("GET", "/mode"), (200, {"mode": "READWRITE"}))
        self.registry.register("g")
        self.registry.write("DELETE", "/subjects/s-d")
        self.assertIn("1 versions, 1 deletions and 0 levels sent", self.run_command("copy-to", self.there.url, "--yes"))
        self.arrived()

    def test_the_switch(self):
        self.run_command("copy-to", self.there.url, "--yes")
        self.registry.register("g")
        self.assertIn("kept here, read-only", self.run_command("copy-to", self.there.url, "--switch", "--yes"))
        self.arrived()
        self.assertEqual(self.there.modes, {"": "READWRITE", "s-c": "READONLY"})
        self.assertEqual(self.place.ask("GET", "/mode"), (200, {"mode": "READONLY"}))
        self.assertFalse(self.place.job_file.exists() or self.place.paused_file.exists())

    def test_failing_at_each_request_then_again(self):
        for number in range(1, 60, 5):
            last = self.there.requests + number
            self.there.fails = lambda *_, last=last: self.there.requests >= last
            self.run_command("copy-to", self.there.url, "--yes", status=2)
        self.there.fails = lambda *_: False
        self.run_command("copy-to", self.there.url, "--yes")
        self.arrived()

    def test_a_switch_that_fails_goes_on_or_is_undone(self):
        for wanted in (("POST", "/subjects/s-e/"), ("DELETE", "/subjects/s-a"), ("PUT", "/mode/s-c"), ("PUT", "/mode?")):
            for ending in ("undo", "continue"):
                self.there = Importing()
                self.addCleanup(self.there.close)
                self.there.fails = lambda method, target, wanted=wanted: (
                    (method, target[:len(wanted[1])]) == wanted and (wanted[1] != "/mode?" or self.there.modes[""] == "IMPORT"))
                self.run_command("copy-to", self.there.url, "--switch", "--yes", status=3)
                self.assertEqual(self.place.ask("GET", "/mode"), (200, {"mode": "READONLY"}))
                self.there.fails = lambda *_: False
                self.place.stop()
                self.place.start()  # the guard lets it through
                self.run_command(ending, "--yes")
                self.assertEqual(self.place.ask("GET", "/mode")[1], {"mode": "READWRITE" if ending == "undo" else "READONLY"})
                if ending == "continue":
                    self.arrived()
                    self.assertEqual(self.there.modes, {"": "READWRITE", "s-c": "READONLY"})
                self.place.ask("PUT", "/mode", {"mode": "READWRITE"})

    def test_another_registry_is_refused(self):
        self.there.subjects["theirs"] = {1: [1, '"int"', False]}
        self.refused("copy-to", self.there.url, "--yes", text="version 1 of theirs: only there")
        self.there.subjects = {"s-b": {1: [9, "{}", False]}}
        self.refused("copy-to", self.there.url, "--yes", text="version 1 of s-b has id 9 there, and 2 here")
        self.there.subjects = {"s-b": {1: [2, "{}", False]}}
        self.refused("copy-to", self.there.url, "--yes", text="has another schema there")
        self.there.subjects = {"s-b": {1: [2, '{"name":"b","size":1,"type":"fixed"}', True]}}
        self.refused("copy-to", self.there.url, "--yes", text="is deleted there")
        self.assertEqual(self.there.modes, {"": "READWRITE"})

    def test_a_lost_deletion_is_found(self):
        self.run_command("copy-to", self.there.url, "--yes")
        respond = self.there.respond
        self.there.subjects["s-a"][1][2] = False
        self.there.respond = lambda method, target, body: (200, 1) if method == "DELETE" else respond(method, target, body)
        self.refused("copy-to", self.there.url, "--yes", text="version 1 of s-a isn't deleted there")

    def test_a_user_and_its_password(self):
        self.there.user = "admin:secret"
        self.refused("copy-to", self.there.url, "--to-user", "admin", "--yes", text="set TO_PASSWORD")
        with mock.patch.dict(os.environ, {"TO_PASSWORD": "wrong"}):
            self.refused("copy-to", self.there.url, "--to-user", "admin", "--yes", text="got 401", status=2)
        with mock.patch.dict(os.environ, {"TO_PASSWORD": "secret"}):
            printed = self.run_command("copy-to", self.there.url, "--to-user", "admin", "--yes")
        self.assertNotIn("secret", printed + (self.place.state / "history.jsonl").read_text())
        self.arrived()

    def test_your_own_texts(self):
        folder = self.registry.root / "originals"
        folder.mkdir()
        (folder / "d.avsc").write_text('{ "type": "fixed",\n "name": "d", "size": 1 }')
        (folder / "other.avsc").write_text("no schema")
        self.run_command("copy-to", self.there.url, "--originals", str(folder), "--yes")
        self.assertEqual(self.there.subjects["s-d"][1][1], '{"type": "fixed", "name": "d", "size": 1}')
        self.arrived()

    def test_no_server_and_no_address(self):
        self.refused("copy-to", "http://127.0.0.1:9", "--yes", text="ConnectionRefused", status=2)
        self.refused("copy-to", "ftp://x", "--yes", text="is no address")


if __name__ == "__main__":
    unittest.main()
