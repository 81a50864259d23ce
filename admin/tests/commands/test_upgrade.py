"""`upgrade` and `rollback` with two releases of a test: to the same layout and to another one, killed, and on a lost terminal."""

import json
import os
import signal
import time
import unittest
from unittest import mock

from support import CommandCase, forked, free_port

import releasing
from avroreg_admin import job, places
from kills import KILLED


class UpgradeCase(CommandCase):
    NEW = releasing.SAME

    def setUp(self):
        super().setUp()
        self.enterContext(mock.patch.dict(os.environ, AVROREG_REAL=os.environ["AVROREG"]))
        self.again()

    def again(self) -> None:
        self.registry.reset(is_served=True)
        releasing.make(self.registry.root, self.NEW)

    def act(self, *words: str, status: int = 0, **environment: str) -> str:
        got, printed = releasing.run(self.registry.root, *words, **environment)
        self.assertEqual(got, status, printed)
        self.assertNotIn("raceback", printed)
        return printed

    @property
    def release(self) -> str:
        return (self.registry.root / "release").read_text()

    def deb(self, name: str) -> str:
        return str(self.registry.root / f"{name}.deb")

    def listing(self) -> dict:
        """What is served, by HTTP."""
        subjects = self.place.ask("GET", "/subjects?deleted=true")[1]
        return {name: self.place.ask("GET", f"/subjects/{name}/versions?deleted=true")[1] for name in subjects}

    def check_over(self, release: str) -> None:
        self.assertEqual(self.release, release)
        self.assertFalse(self.place.job_file.exists() or self.place.paused_file.exists())
        self.assertEqual(self.place.ask("GET", "/config")[0], 200)
        self.assertIn("s-b", self.listing())


class SameLayoutCase(UpgradeCase):
    def test_there_and_back_with_every_write(self):
        before = self.listing()
        self.act("upgrade", self.deb("2.0"), "--yes")
        self.check_over("2.0")
        self.assertEqual(self.listing(), before)
        self.registry.register("meanwhile")
        self.act("rollback", "--yes")
        self.check_over("1.0")
        self.assertEqual(self.listing(), before | {"s-meanwhile": [1]})

    def test_a_dry_run_names_what_it_would_do(self):
        self.assertIn("1.0 -> 2.0", self.act("upgrade", self.deb("2.0"), "--dry-run"))
        self.assertEqual(self.release, "1.0")

    def test_undo_is_refused_once_the_new_release_has_served(self):
        held = self.registry.root / "held"
        process = releasing.begin(self.registry.root, "upgrade", self.deb("2.0"), "--yes", HOLD_NEW_AT="6")
        while not held.exists():
            time.sleep(0.01)
        process.kill()
        process.communicate()
        self.assertIn("has served already", self.act("undo", "--yes", status=1))
        self.act("continue")
        self.check_over("2.0")

    def test_killed_at_effects_then_continued_or_undone(self):
        before, kills = self.listing(), 0
        for ending, end in (("continue", "2.0"), ("undo", "1.0")):
            for number in range(1, 400, 11):
                self.again()
                status, printed = releasing.run(self.registry.root, "upgrade", self.deb("2.0"), "--yes", KILL_AT=str(number))
                if status != KILLED:
                    break
                kills += 1
                self.recover(ending, end)
                self.assertEqual(self.listing(), before)
        self.assertGreater(kills, 10)

    def recover(self, ending: str, end: str) -> None:
        """After a kill: the job goes on or is undone. Without a job, nothing was changed, or all is done."""
        if not self.place.job_file.exists():
            return self.check_over(self.release)
        got, printed = releasing.run(self.registry.root, ending, "--yes")
        if ending == "undo" and got == 1:
            self.assertIn("has served already", printed)
            self.act("continue")
            end = "2.0"
        else:
            self.assertEqual(got, 0, printed)
        self.check_over(end)


class OtherLayoutCase(UpgradeCase):
    NEW = releasing.NEW

    def setUp(self):
        super().setUp()
        self.act("upgrade", self.deb("2.0"), "--yes")
        self.check_over("2.0")
        self.number = self.registry.register("meanwhile")
        self.registry.write("PUT", "/config/s-d", {"compatibility": "FULL"})

    def differences(self) -> str:
        return "".join(file.read_text() for file in self.place.state.glob("*/difference.txt"))

    def check_back(self) -> None:
        """The registry of before the upgrade, in which the lost id has its schema. What was lost is named."""
        self.check_over("1.0")
        self.assertNotIn("s-meanwhile", self.listing())
        self.assertIn('"meanwhile"', self.place.ask("GET", f"/schemas/ids/{self.number}")[1]["schema"])
        self.assertIn("version 1 of s-meanwhile", self.differences())
        self.assertIn("level of s-d", self.differences())
        self.assertEqual(self.registry.register("meanwhile"), self.number)
        self.assertGreater(self.registry.register("new"), self.number)

    def test_the_backup_is_restored_and_lost_ids_keep_their_schemas(self):
        self.assertIn("can't read its layout", self.act("rollback", "--dry-run"))
        self.assertEqual(self.release, "2.0")
        self.act("rollback", "--yes")
        self.check_back()

    def test_an_upgrade_to_the_older_release_names_rollback(self):
        self.assertIn("avroreg-admin rollback", self.act("upgrade", self.deb("1.0"), "--yes", status=1))
        self.check_over("2.0")

    def test_without_a_backup_of_before_it_is_refused(self):
        for file in self.place.backups.glob("registry-*.json"):
            file.write_text(json.dumps(json.loads(file.read_text()) | {"pinned": ""}))
        self.assertIn("no backup of it from before 2.0", self.act("rollback", "--yes", status=1))
        self.check_over("2.0")

    def test_two_registries(self):
        """Each one gets its own backup back; nothing is lost of the one that nobody wrote to."""
        self.again()
        self.act("init", "--registry", "orders", "--port", str(free_port()))
        orders = places.place_of("orders")
        self.addCleanup(orders.stop)
        self.assertEqual(orders.ask("POST", "/subjects/kept/versions", {"schema": '"int"'}), (200, {"id": 1}))
        self.act("upgrade", self.deb("2.0"), "--registry", "default", "--yes")
        self.number = self.registry.register("meanwhile")
        self.registry.write("PUT", "/config/s-d", {"compatibility": "FULL"})
        self.act("rollback", "--registry", "default", "--yes")
        self.check_back()
        self.assertEqual(orders.ask("GET", "/subjects"), (200, ["kept"]))
        self.assertEqual("".join(file.read_text() for file in orders.state.glob("*/difference.txt")).strip(), "")
        self.assertFalse(orders.paused_file.exists())

    def test_killed_at_effects_then_continued_or_undone(self):
        kills, undone = 0, 0
        for ending in ("continue", "undo"):
            for number in range(1, 600, 29):
                self.again()
                self.act("upgrade", self.deb("2.0"), "--yes")
                self.number = self.registry.register("meanwhile")
                self.registry.write("PUT", "/config/s-d", {"compatibility": "FULL"})
                status, printed = releasing.run(self.registry.root, "rollback", "--yes", KILL_AT=str(number))
                if status != KILLED:
                    break
                kills += 1
                undone += self.recover(ending)
        self.assertGreater(kills, 10)
        self.assertGreater(undone, 2)

    def recover(self, ending: str) -> bool:
        """Returns whether the rollback was undone."""
        if not self.place.job_file.exists():
            self.check_over(self.release)
            return False
        got, printed = releasing.run(self.registry.root, ending, "--yes")
        if ending == "undo" and got == 0:
            self.check_over("2.0")
            self.assertIn("s-meanwhile", self.listing())
            self.assertEqual(list(self.place.jobs.glob("*/*")), [])
            return True
        if ending == "undo":
            self.assertRegex(printed, "has served (already|the new file)")
            got, printed = releasing.run(self.registry.root, "continue")
        self.assertEqual(got, 0, printed)
        self.check_back()
        return False


class HangupCase(UpgradeCase):
    """A lost terminal: the session gets SIGHUP, and each later print fails."""

    def lose_terminal(self, step: int, *words: str) -> int:
        return releasing.lose_terminal(self.registry.root, step, *words)

    def test_an_upgrade_goes_on(self):
        for step in range(2, 4):  # later steps are of the new release's process
            with self.subTest(step=step):
                self.again()
                self.assertEqual(self.lose_terminal(step, "upgrade", self.deb("2.0"), "--yes"), 0)
                self.check_over("2.0")

    def test_a_rollback_goes_on(self):
        for step in range(2, 7):
            with self.subTest(step=step):
                self.again()
                self.act("upgrade", self.deb("2.0"), "--yes")
                self.assertEqual(self.lose_terminal(step, "rollback", "--yes"), 0)
                self.check_over("1.0")

    def test_before_the_stop_it_ends_and_can_be_continued(self):
        self.assertEqual(self.lose_terminal(1, "upgrade", self.deb("2.0"), "--yes"), 3)
        self.assertEqual(self.place.ask("GET", "/config")[0], 200)
        self.act("continue")
        self.check_over("2.0")

    def test_a_restore_goes_on(self):
        for step in range(2, 8):
            with self.subTest(step=step):
                self.again()
                self.assertEqual(self.lose_terminal(step, "restore", "--newest", "--yes"), 0)
                self.check_over("1.0")

    def test_a_command_that_nohup_began_ignores_every_hangup(self):
        def ignore(*_):
            signal.signal(signal.SIGHUP, signal.SIG_IGN)
        status, printed = forked(["restore", "--newest", "--yes"], lambda: (ignore(), setattr(job, "_take", self.hang_up(job._take))))
        self.assertEqual(status, 0, printed)

    @staticmethod
    def hang_up(take):
        def taken(*arguments):
            os.kill(os.getpid(), signal.SIGHUP)
            return take(*arguments)
        return taken


del UpgradeCase

if __name__ == "__main__":
    unittest.main()
