"""`restore`: good runs, the choice of a backup, and backups that can't be used."""

import json
import os
import shutil
import subprocess
import unittest
from datetime import datetime, timedelta, timezone
from unittest import mock

from restoring import RESTORE, RestoreCase
from support import free_port, state_of

from avroreg_admin import places


class GoodCase(RestoreCase):
    def test_a_stopped_registry(self):
        printed = self.run_command(*RESTORE)
        self.assertIn("lost ids  4 to 6: the old file has 3 schemas after the backup's, and they keep their ids", printed)
        result = self.restored()
        self.assertEqual(result["schemas"], self.registry.old["schemas"])
        self.assertEqual({name: (self.kept() / name).read_bytes() for name in self.registry.before}, self.registry.before)
        self.assertEqual(self.place.database.stat().st_mode & 0o777, 0o600)
        for line in ("version 1 of s-a was deleted, and is there again", "version 1 of s-d, id 4, is lost", "level of s-b: it was FULL, and is not set",
                     "mode of s-c: it was READONLY, and is not set"):
            self.assertIn(line, self.difference())
        self.no_id_is_given_twice()

    def test_a_served_registry(self):
        self.registry.reset(is_served=True)
        self.run_command(*RESTORE)
        self.restored()
        self.no_id_is_given_twice()

    def test_a_read_only_registry_stays_so(self):
        file = self.backup_file()
        subprocess.run([os.environ["AVROREG"], "run", "--db", file], input=b'PUT /mode HTTP/1.1\r\nHost: x\r\nContent-Length: 19\r\n\r\n{"mode":"READONLY"}',
                       check=True, capture_output=True)
        self.run_command(*RESTORE)
        self.assertEqual(self.place.ask("GET", "/mode")[1], {"mode": "READONLY"})
        self.restored()
        self.no_id_is_given_twice()

    def test_a_backup_with_its_log(self):
        hot = self.registry.root / "hot.db"
        for suffix in ("", "-wal"):
            shutil.copyfile(f"{self.place.database}{suffix}", f"{hot}{suffix}")
        self.run_command("restore", "--file", str(hot), "--yes")
        self.assertEqual(state_of(self.place.database)["versions"], self.registry.old["versions"])

    def test_the_old_files_may_be_incomplete(self):
        """Without F, or without its log, the old file isn't whole: what was lost is known by what `watch` saw."""
        for missing in (("registry.db", "registry.db-wal"), ("registry.db",), ("registry.db-wal",)):
            self.registry.reset()
            for name in missing:
                (self.place.folder / name).unlink()
            self.refused(*RESTORE, text="nobody knows how many ids were assigned")
            self.assertEqual(set(self.registry.files), set(self.registry.before) - set(missing))
            self.run_command(*RESTORE, "--greatest-id", "6")
            self.restored()
            self.no_id_is_given_twice()

    def test_a_journal_of_another_program_does_not_meet_the_new_file(self):
        journal = self.place.database.with_name("registry.db-journal")
        journal.write_bytes(b"another program's")
        self.run_command(*RESTORE)
        self.restored()
        self.assertFalse(journal.exists())
        self.assertEqual((self.kept() / journal.name).read_bytes(), b"another program's")

    def test_a_new_machine(self):
        """The package is installed, and the backups are on another machine. `rsync` copies them; nobody ran init."""
        far = self.registry.root / "far"
        shutil.copytree(self.place.backups, far)
        for folder in ("var/lib/avroreg", "var/lib/avroreg-backup", "var/lib/avroreg-admin", "etc"):
            shutil.rmtree(self.registry.root / folder, ignore_errors=True)
        settings = self.registry.template / "etc/default/avroreg"
        (self.registry.root / "etc/default").mkdir(parents=True)
        shutil.copyfile(settings, self.place.settings_file)
        self.script("rsync", f'for to; do :; done; cp {far}/* "$to"')
        with mock.patch.dict(os.environ, {"PATH": f"{self.registry.root}:{os.environ['PATH']}"}):
            self.refused("restore", "--from", "vault", "--yes", text="isn't HOST:DIR", status=64)
            self.refused("restore", "--from", "vault:/srv", "--yes", text="nobody knows how many ids")
            self.run_command("restore", "--from", "vault:/srv", "--greatest-id", "6", "--yes")
        self.restored()
        self.no_id_is_given_twice()
        self.assertTrue(self.place.is_enabled())
        self.assertFalse((self.place.state / "fetched").exists() or (self.place.jobs / "incoming").exists())


class SecondCase(RestoreCase):
    def test_a_second_registry_is_restored_alone(self):
        """Each command that is printed has its name: without it, the command would change the first registry."""
        self.run_command("init", "--registry", "orders", "--port", str(free_port()))
        orders = places.place_of("orders")
        self.addCleanup(orders.stop)
        status, body = orders.ask("POST", "/subjects/s/versions", {"schema": '"string"'})
        self.assertEqual((status, body), (200, {"id": 1}))
        self.run_command("backup", "--registry", "orders")
        self.assertEqual(orders.ask("POST", "/subjects/s2/versions", {"schema": '"int"'})[0], 200)
        self.assertIn("lost ids  2 to 2", self.run_command("restore", "--registry", "orders", "--newest", "--yes"))
        self.assertEqual(orders.ask("GET", "/subjects"), (200, ["s"]))
        self.refused("restore", "--registry", "orders", "--before", "2020-01-01T00:00Z", text="avroreg-admin backups --registry orders")
        self.assertEqual(self.registry.files, self.registry.before)


class ChoiceCase(RestoreCase):
    def test_the_newest_backup_is_refused_if_another_has_more_schemas(self):
        self.registry.reset(is_served=True)
        self.run_command("backup")
        full = sorted(self.place.backups.glob("registry-*.json"))[-1]
        record = json.loads(full.read_text())
        older = self.backup_file().with_suffix(".json")
        first = json.loads(sorted(self.place.backups.glob("registry-*.json"))[0].read_text())
        full.write_text(json.dumps(record | {"number": 1, "baseline": 1}))
        sorted(self.place.backups.glob("registry-*.json"))[0].write_text(json.dumps(first | {"number": 2, "baseline": 1}))
        self.assertTrue(older.exists())
        self.refused("restore", "--yes", text=f"Another one is {record['file']}")
        self.assertIn(record["file"], self.run_command("restore", "--fullest", "--dry-run"))
        self.assertIn(first["file"], self.run_command("restore", "--newest", "--dry-run"))

    def test_the_newest_backup_before_a_time(self):
        now = datetime.now(timezone.utc)
        self.refused("restore", "--before", (now - timedelta(days=9)).isoformat(), "--yes", text="no backup is from before")
        self.refused("restore", "--before", "2026-11-28T02:30", "--yes", text="is no time with an offset", status=64)
        self.assertIn(self.backup_file().name, self.run_command("restore", "--before", (now + timedelta(days=1)).isoformat(), "--dry-run"))

    def test_bad_backups_change_nothing(self):
        bad, good = self.registry.root / "bad.db", self.backup_file().read_bytes()
        self.refused("restore", "--file", "/none/none.db", "--yes", text="there is no file")
        for data in (b"", b"{}\n" * 999, good[:8192], self.registry.before["registry.db"][:-1]):
            bad.write_bytes(data)
            self.refused("restore", "--file", str(bad), "--yes", text="Choose another backup")
            self.unchanged()

    def test_an_audit_that_says_no_changes_nothing(self):
        for text in ("echo evidence does not hold; exit 1", "exit 0", "exit 3"):
            with mock.patch.dict(os.environ, {"AVROREG": self.script("other-program", text)}):
                self.refused(*RESTORE, text="Choose another backup")
            self.unchanged()
        with mock.patch.dict(os.environ, {"AVROREG": "/none/avroreg"}):
            self.refused(*RESTORE, text="No such file", status=2)
        self.unchanged()

    def test_a_dry_run_and_no_terminal_change_nothing(self):
        self.assertIn("lost ids  4 to 6", self.run_command("restore", "--newest", "--dry-run"))
        self.unchanged()
        self.refused("restore", "--newest", text="there is no terminal to ask", status=64)
        self.unchanged()


if __name__ == "__main__":
    unittest.main()
