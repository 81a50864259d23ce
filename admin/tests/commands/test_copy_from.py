"""`copy-from` and `rescue --over-http`: from another avroreg, and from a stand-in for Confluent's registry and back to it."""

import os
import unittest

from support import CommandCase, free_port, state_of

from avroreg_admin import copy_from, copying, places
from importing import Registry as Importing


class FromCase(CommandCase):
    """This registry is empty. The other one is `orders`, which has the contents of the template."""

    def setUp(self):
        super().setUp()
        self.again()

    def again(self) -> None:
        self.registry.reset(is_served=True)
        self.there = self.place
        self.run_command("init", "--registry", "empty", "--port", str(free_port()))
        self.here = places.place_of("empty")
        self.addCleanup(self.here.stop)
        self.jobs = sorted(self.here.jobs.glob("*"))

    def copy(self, *words: str, status: int = 0, **more) -> str:
        return self.run_command("copy-from", self.there.url, "--registry", "empty", "--yes", *words, status=status, **more)

    def served(self, place, path: str):
        return place.ask("GET", path)[1]

    def facts(self, place) -> dict:
        subjects = self.served(place, "/subjects?deleted=true")
        found = {name: self.served(place, f"/subjects/{name}/versions") for name in subjects}
        return found | {"levels": [self.served(place, f"/config/{name}") for name in subjects], "modes": [self.served(place, f"/mode/{name}") for name in subjects],
                        "ids": [self.served(place, f"/schemas/ids/{number}") for number in range(1, 8)]}

    def is_untouched(self) -> None:
        self.assertEqual(self.served(self.here, "/subjects?deleted=true"), [])
        self.assertEqual(self.served(self.there, "/mode"), {"mode": "READWRITE"})
        self.assertEqual(sorted(self.here.jobs.glob("*")), self.jobs)

    def check_switched(self) -> None:
        self.assertEqual(self.facts(self.here), self.facts(self.there))
        self.assertEqual([self.served(place, "/mode")["mode"] for place in (self.there, self.here)], ["READONLY", "READWRITE"])
        self.assertFalse(self.here.job_file.exists() or self.here.paused_file.exists())

    def test_a_rehearsal_changes_nothing(self):
        self.assertIn("rehearsal: copied and compared, equal", self.copy())
        self.is_untouched()
        self.copy("--dry-run")
        self.is_untouched()

    def test_the_switch(self):
        self.copy("--switch", "--dry-run")
        self.is_untouched()
        self.assertIn("give your clients", self.copy("--switch"))
        self.check_switched()
        self.assertEqual(self.here.ask("POST", "/subjects/new/versions", {"schema": '"int"'}), (200, {"id": 7}))

    def test_what_can_not_be_copied_is_named_with_its_option(self):
        self.registry.write("DELETE", "/subjects/s-a?permanent=true")  # its id has no version any more
        self.assertIn("--fill-ids", self.copy(status=1))
        self.is_untouched()
        self.assertIn("--fill-ids", self.copy("--switch", status=3))
        self.run_command("undo", "--registry", "empty", "--yes")
        self.is_untouched()
        self.copy("--fill-ids", "--switch")
        self.assertEqual(self.served(self.here, "/subjects?deleted=true"), ["s-b", "s-c", "s-d", "s-e", "s-f"])

    def test_a_registry_with_schemas_is_replaced_only_on_demand(self):
        self.here.ask("POST", "/subjects/mine/versions", {"schema": '"int"'})
        self.assertIn("--replace", self.copy("--switch", status=1))
        printed = self.copy("--switch", "--replace")
        self.check_switched()
        self.assertIn("restart the consumers", printed)
        self.assertIn("version 1 of mine", "".join(file.read_text() for file in self.here.state.glob("*/difference.txt")))
        self.assertEqual(len(list(self.here.jobs.glob("*/old/registry.db"))), 1)

    def test_ids_that_begin_later(self):
        self.registry.write("POST", "/subjects/late/versions", {"schema": '{"type":"fixed","name":"late","size":1}'})
        self.assertIn("which --used-ids 3 uses up", self.copy("--used-ids", "3", status=1))
        place = self.here
        place.hands(copying.prepare, avroreg=place.program, database=place.jobs / "x" / "registry.db", used_ids=3, certificate=None)
        with copying.served(place, place.jobs / "x" / "registry.db") as url:
            asked = places.place_of("empty")
            asked.__class__ = type("Asked", (asked.__class__,), {"settings": property(lambda _: type("S", (), {"port": int(url.rpartition(":")[2])}))})
            self.assertEqual(asked.ask("GET", "/subjects?deleted=true"), (200, []))
            self.assertEqual(asked.ask("POST", "/subjects/x/versions", {"schema": '"int"'}), (200, {"id": 4}))

    def kill_in(self, step: str, *words: str) -> None:
        """Kills the switch right after this step's effect."""
        def install(before=getattr(copy_from.Switch, step)):
            setattr(copy_from.Switch, step, lambda self: (before(self), os._exit(9)))
        self.copy("--switch", status=9, prepare=install)

    def test_killed_after_each_step_then_continued_or_undone(self):
        for step in ("close_there", "copy", "pause", "stop", "swap"):
            for ending in ("continue", "undo"):
                with self.subTest(step=step, ending=ending):
                    self.again()
                    self.kill_in(step)
                    self.run_command(ending, "--registry", "empty", "--yes")
                    if ending == "continue":
                        self.check_switched()
                    else:
                        self.assertIsNotNone(self.here.process())
                        self.is_untouched()

    def test_undo_is_refused_once_the_copy_is_served(self):
        self.kill_in("start")
        self.assertIn("has served the new file", self.run_command("undo", "--registry", "empty", "--yes", status=1))
        self.run_command("continue", "--registry", "empty")
        self.check_switched()

    def test_a_killed_copy_goes_on_where_it_was(self):
        for number in range(4):
            self.registry.register(f"more{number}")

        def install(before=copying.said):
            def some(lines, output):
                for count, line in enumerate(before(lines, output)):
                    if line.startswith("read") and count > 1:
                        os._exit(9)
                    yield line
            copying.said = some
        self.copy("--switch", status=9, prepare=install)
        self.run_command("continue", "--registry", "empty")
        self.check_switched()


class RoundCase(CommandCase):
    """From the stand-in, and to another one: everything is equal, also with kills on the way."""

    def setUp(self):
        super().setUp()
        self.registry.reset(is_served=True)
        self.run_command("init", "--registry", "empty", "--port", str(free_port()))
        self.addCleanup(places.place_of("empty").stop)
        self.stand_ins = [Importing(), Importing()]
        for one in self.stand_ins:
            self.addCleanup(one.close)

    def test_there_and_back(self):
        first, second = self.stand_ins
        self.registry.write("DELETE", "/subjects/s-d/versions/1")
        self.run_command("copy-to", first.url, "--switch", "--yes")
        self.run_command("copy-from", first.url, "--registry", "empty", "--switch", "--yes")
        for number in (10, 25, 40):
            last = second.requests + number
            second.fails = lambda *_, last=last: second.requests >= last
            self.run_command("copy-to", second.url, "--registry", "empty", "--yes", status=2)
        second.fails = lambda *_: False
        self.run_command("copy-to", second.url, "--registry", "empty", "--switch", "--yes")
        self.assertEqual(second.subjects, first.subjects)
        self.assertEqual(second.levels, first.levels)
        self.assertEqual({name: mode for name, mode in second.modes.items() if name}, {name: mode for name, mode in first.modes.items() if name})


class OverHttpCase(CommandCase):
    def test_what_is_served_is_copied_into_a_file(self):
        self.registry.reset(is_served=True)
        before = state_of(self.place.database)
        printed = self.run_command("rescue", "--over-http")
        file = next(self.place.folder.glob("over-http-*.db"))
        self.assertIn(f"next  to put it in place: avroreg-admin restore --file {file}", printed)
        self.assertEqual(state_of(file)["versions"], before["versions"])
        self.run_command("watch")
        self.run_command("restore", "--file", str(file), "--yes")
        self.assertEqual(state_of(self.place.database)["versions"], before["versions"])

    def test_without_a_server_there_is_nothing_to_copy(self):
        self.registry.reset()
        self.refused("rescue", "--over-http", text="serves nothing")

    def test_a_dry_run_copies_nothing(self):
        self.registry.reset(is_served=True)
        self.run_command("rescue", "--over-http", "--dry-run")
        self.assertEqual(list(self.place.folder.glob("over-http-*")), [])


if __name__ == "__main__":
    unittest.main()
