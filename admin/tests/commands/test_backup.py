"""`backup`, `nightly`, `backups` and `drill`."""

import contextlib
import json
import os
import resource
import shutil
import signal
import subprocess
import sys
import tarfile
import time
import unittest
from pathlib import Path
from unittest import mock

from support import CommandCase, state_of

FUTURE = 1893456000  # 2030-01-01


class BackupCase(CommandCase):
    def setUp(self):
        super().setUp()
        self.registry.reset(is_served=True)
        self.backups = self.place.backups

    def names(self) -> list[str]:
        return sorted(file.name for file in self.backups.glob("registry-*.db"))

    def records(self) -> list[dict]:
        return sorted((json.loads(file.read_text()) for file in self.backups.glob("registry-*.json")), key=lambda record: record["number"])

    def use_program(self, text: str):
        """Another program in the place of avroreg, for the next commands."""
        return mock.patch.dict(os.environ, {"AVROREG": self.script("other-program", text)})

    def test_a_backup_of_a_served_registry(self):
        before = self.names()
        printed = self.run_command("backup")
        self.assertIn("schemas, audit holds", printed)
        new = (set(self.names()) - set(before)).pop()
        record = self.records()[-1]
        self.assertEqual((record["file"], record["number"], record["schemas"], record["audit"]), (new, 2, 6, "holds"))
        self.assertEqual(state_of(self.backups / new), self.registry.old)
        self.assertFalse((self.backups / (new + "-wal")).exists())
        note = json.loads((self.backups / "last-good.json").read_text())
        self.assertEqual((note["file"], note["schemas"], note["expected"], note["fullest"]), (new, 6, 6, {"file": new, "schemas": 6}))

    def test_everything_in_the_folder_is_for_its_owner_only(self):
        self.run_command("backup")
        for file in self.backups.iterdir():
            self.assertEqual(file.stat().st_mode & 0o777, 0o600, file.name)

    def test_a_backup_of_a_stopped_registry(self):
        self.place.stop()
        self.run_command("backup")
        self.assertEqual(state_of(self.backups / self.records()[-1]["file"]), self.registry.old)
        shutil.copyfile(self.backups / self.names()[-1], self.place.database)  # a registry without a log
        os.unlink(self.place.log)
        self.run_command("backup")
        self.assertEqual(state_of(self.backups / self.records()[-1]["file"]), self.registry.old)

    def test_a_missing_file_or_log_of_a_served_registry(self):
        before = self.names()
        for file in (self.place.log, self.place.database):
            away = file.with_name("away")
            file.rename(away)
            self.refused("backup", text=f"{file} is missing, and avroreg may still have it open", status=2)
            self.assertIn("avroreg-admin rescue", self.run_command("nightly", status=2))
            away.rename(file)
        self.assertEqual(self.names(), before)

    def test_a_disk_that_is_too_full(self):
        def limit():
            signal.signal(signal.SIGXFSZ, signal.SIG_IGN)
            resource.setrlimit(resource.RLIMIT_FSIZE, (40960, 40960))
        before = sorted(os.listdir(self.backups))
        self.refused("backup", text="File too large", status=2, prepare=limit)
        self.assertEqual(sorted(os.listdir(self.backups)), before)
        free = mock.Mock(free=1000)
        self.refused("backup", text="0 MB free, and a backup needs", prepare=lambda: setattr(shutil, "disk_usage", lambda _: free))
        self.assertEqual(sorted(os.listdir(self.backups)), before)

    def test_a_failed_audit_leaves_no_backup(self):
        before = sorted(os.listdir(self.backups))
        for text, says in (("exit 1", "status 1"), ("exit 0", "status 0"), ("echo evidence does not hold; exit 1", "evidence does not hold"),
                           (': >"$3-wal"; echo evidence holds', "registry-")):
            with self.use_program(text):
                self.refused("backup", text=says, status=2)
            self.assertEqual(sorted(os.listdir(self.backups)), before)

    def test_a_killed_backup_leaves_no_backup_and_the_next_one_cleans_up(self):
        before = self.names()
        with self.use_program("kill -KILL $PPID"):
            self.run_command("backup", status=-9)
        self.assertEqual(self.names(), before)
        self.assertTrue(list(self.backups.glob("unfinished-*")))
        self.run_command("backup")
        self.assertEqual(list(self.backups.glob("unfinished-*")), [])
        self.assertEqual(len(self.names()), len(before) + 1)

    def make_new_registry(self):
        """A registry with fewer schemas, made by mistake."""
        self.place.stop()
        for file in (self.place.database, self.place.log):
            file.unlink()
        subprocess.run([os.environ["AVROREG"], "run", "--db", self.place.database], stdin=subprocess.DEVNULL, check=True, stdout=subprocess.DEVNULL)

    def test_the_fullest_backup_stays_until_fewer_schemas_are_accepted(self):
        self.run_command("backup", "--keep", "1")
        self.run_command("backup")
        fullest = self.records()[-1]["file"]
        self.make_new_registry()
        for _ in range(2):
            self.assertIn(f"has 0 schemas, and {fullest} has 6, and is kept", self.run_command("nightly"))
        self.assertEqual([record["schemas"] for record in self.records()], [6, 0])
        self.assertEqual(json.loads((self.backups / "last-good.json").read_text())["expected"], 6)
        self.refused("backup", "--accept-fewer", " ", text="needs a reason", status=64)
        self.assertNotIn("warn", self.run_command("backup", "--accept-fewer", "new registry for test"))
        self.assertNotIn("warn", self.run_command("nightly"))
        self.assertEqual([record["schemas"] for record in self.records()], [0])

    def test_a_wrong_clock_costs_no_backup(self):
        """Seven backups of 2030, which have more schemas; then the clock is right again."""
        for day in range(1, 8):
            at = FUTURE + 86400 * day
            self.run_command("backup", prepare=lambda at=at: setattr(time, "time", lambda: at))
        wrong = self.names()
        self.make_new_registry()
        for _ in range(3):
            printed = self.run_command("nightly")
            newest = self.records()[-1]
            self.assertIn(newest["file"], printed)
            self.assertIn(newest["file"], self.names())
            self.assertIn("have a time in the future, such as registry-2030", printed)
            self.assertEqual(json.loads((self.backups / "last-good.json").read_text())["file"], newest["file"])
        self.assertLess(newest["time"], FUTURE)
        self.assertEqual(len([name for name in self.names() if name in wrong]), 4)  # the newest three are of now
        self.assertIn("from the future", self.run_command("backups"))

    def test_a_damaged_note_or_record_costs_no_backup(self):
        self.run_command("backup")
        for text in ("", "{", "[]", '{"file":5}'):
            (self.backups / "last-good.json").write_text(text)
            self.run_command("nightly")
            self.assertEqual(json.loads((self.backups / "last-good.json").read_text())["schemas"], 6)
        first = self.records()[0]
        (self.backups / first["file"]).with_suffix(".json").write_text("damaged")
        self.assertIn("has no record", self.run_command("backups"))
        self.run_command("nightly")
        found = self.records()[0]
        self.assertEqual((found["file"], found["schemas"], found["number"] < 0), (first["file"], 3, True))

    def test_backups_of_an_earlier_release_get_records(self):
        """They have no records. Their order is the one of their files' times."""
        self.run_command("backup")
        for file in self.backups.glob("*.json"):
            file.unlink()
        old, new = self.names()
        os.utime(self.backups / old, (2e9, 2e9))  # its name is older, its time isn't
        broken = self.backups / "registry-20200101T000000Z.db"
        broken.write_bytes(b"damaged")
        self.assertIn("registry-20200101T000000Z.db: the audit ended", self.run_command("nightly"))
        self.assertEqual([record["file"] for record in self.records()][:-1], [new, broken.name, old])
        self.assertEqual([record["audit"] for record in self.records()], ["holds", "fails", "holds", "holds"])
        self.assertEqual(self.records()[-1]["expected"], 6)
        self.assertTrue(broken.exists())

    def test_two_backups_at_once(self):
        with self.use_program(f'sleep 2; exec {os.environ["AVROREG"]} "$@"'):
            script = Path(__file__).resolve().parents[2] / "avroreg-admin"
            first = subprocess.Popen([sys.executable, script, "backup"], stdout=subprocess.DEVNULL)
            while not list(self.backups.glob("unfinished-*")):
                time.sleep(0.01)
            self.refused("backup", text=f"another backup to {self.backups} runs", status=75)
            self.assertEqual(first.wait(), 0)

    def test_a_backup_to_a_file(self):
        target = self.registry.root / "copy.db"
        self.run_command("backup", "--to", str(target))
        self.assertEqual(state_of(target), self.registry.old)
        self.assertEqual(target.stat().st_mode & 0o777, 0o600)
        self.assertEqual(len(self.names()), 1)
        self.assertEqual(list(self.backups.glob("unfinished-*")), [])
        self.refused("backup", "--to", str(target), text="exists already")
        shared = self.registry.root / "shared"
        shared.mkdir()
        shared.chmod(0o777)
        self.refused("backup", "--to", str(shared / "copy.db"), text="others than root can change")
        link = self.registry.root / "link"
        link.symlink_to(shared)
        self.refused("backup", "--to", str(link / "copy.db"), text="others than root can change")

    def test_a_planted_link_in_the_archive_is_not_followed(self):
        """A copy for root is read by the descriptor of the folder, and has to be a file of the registry's user."""
        from avroreg_admin import backup
        from avroreg_admin.output import Stop
        (self.backups / "unfinished-link.db").symlink_to("/etc/passwd")
        with self.assertRaises(OSError):
            backup.opened_as_roots(self.backups, "unfinished-link.db", os.geteuid())
        os.link(self.backups / self.names()[0], self.backups / "unfinished-hard.db")
        with self.assertRaises(Stop):
            backup.opened_as_roots(self.backups, "unfinished-hard.db", os.geteuid())

    def test_the_list_and_its_checks(self):
        self.run_command("backup", "--pin", self.names()[0], "--reason", "before 0.2.0")
        self.run_command("backup")
        rows = self.run_command("backups").splitlines()
        self.assertEqual(rows[0].split(), ["TIME", "(UTC)", "SUBJECTS", "VERSIONS", "SCHEMAS", "SIZE", "AUDIT", "NOTE"])
        self.assertIn("newest, fullest", rows[1])
        self.assertIn("pinned: before 0.2.0", rows[2])
        self.assertEqual(self.run_command("backups", "--verify").count("ok "), 2)
        damaged = self.backups / self.names()[1]
        damaged.write_bytes(damaged.read_bytes()[:8192])
        self.assertIn("its bytes changed since it was made", self.run_command("backups", "--verify", status=1))
        self.assertIn("fails", self.run_command("backups"))
        self.assertEqual(len(json.loads(self.run_command("backups", "--json"))["records"]), 2)

    def test_prune_asks_and_keeps(self):
        for _ in range(3):
            self.run_command("backup")
        self.refused("backups", "prune", text="needs --keep N", status=64)
        self.refused("backups", "prune", "--keep", "1", text="there is no terminal to ask", status=64)
        self.assertEqual(len(self.names()), 4)
        self.run_command("backups", "prune", "--keep", "1", "--dry-run")
        self.assertEqual(len(self.names()), 4)
        self.run_command("backups", "prune", "--keep", "1", "--yes")
        self.assertEqual(len(self.names()), 1)

    def set(self, name: str, value: str) -> None:
        with self.place.settings_file.open("a") as file:
            file.write(f"AVROREG_{name}='{value}'\n")

    def test_a_copy_to_another_machine(self):
        """The command gets the backup, its record and a tar of the settings and of nginx's log since the backup before."""
        far, nginx = self.registry.root / "far", self.registry.root / "etc/nginx/conf.d"
        far.mkdir()
        nginx.mkdir(parents=True)
        (nginx / "avroreg.conf").write_text("server { }")
        (nginx.parent / "avroreg.users").write_text("ops:hash")
        package = self.registry.root / "etc/avroreg-nginx"
        package.mkdir()
        (package / "roles").write_text("ops admin")
        self.place.access_log.parent.mkdir(parents=True)
        lines = [json.dumps({"time": f"{year}-01-01T00:00:00+00:00", "method": "GET", "path": "/", "status": 200}) + "\n" for year in (2020, 2090)]
        self.place.access_log.write_text("".join(lines))
        self.assertNotIn("AVROREG_AFTER_BACKUP", self.run_command("backup"))
        self.set("AFTER_BACKUP", f'cp "$AVROREG_BACKUP" "$AVROREG_RECORD" "$AVROREG_SETTINGS" {far}/')
        self.assertIn("copied registry-", self.run_command("backup"))
        newest = self.records()[-1]["file"]
        self.assertEqual(sorted(file.name for file in far.glob("registry*")), [newest.replace(".db", ".json"), newest][::-1])
        tar = next(far.glob("settings-*.tar"))
        self.assertEqual((self.place.state / tar.name).stat().st_mode & 0o777, 0o600)
        with tarfile.open(tar) as opened:
            self.assertEqual(opened.getnames(), ["etc/default/avroreg", "etc/nginx/conf.d/avroreg.conf", "etc/nginx/avroreg.users", "etc/avroreg-nginx/roles", "avroreg.log"])
            self.assertEqual(opened.extractfile("avroreg.log").read().decode(), lines[1])
        self.assertIn(newest, self.run_command("backups"))

    def test_a_copy_that_fails_is_reported(self):
        self.set("AFTER_BACKUP", "echo no route to host; exit 7")
        self.refused("backup", text="AVROREG_AFTER_BACKUP ended with status 7: no route to host", status=2)
        self.assertEqual(len(self.names()), 2)
        self.run_command("nightly")
        self.refused("after-backup", text="no route to host", status=2)
        self.assertIn("offsite-failed", self.run_command("doctor", status=1))
        self.set("AFTER_BACKUP", "true")
        self.run_command("after-backup")
        self.assertNotIn("offsite-failed", self.run_command("doctor", "--quick"))

    @unittest.skipIf(shutil.which("systemd-analyze") is None, "needs systemd-analyze")
    def test_the_schedule(self):
        self.refused("backup", "--schedule", "at night", text="is no calendar expression", status=64)
        self.run_command("backup", "--schedule", "*-*-* 00/6:00", "--keep", "30")
        self.assertEqual((self.place.settings.backup_interval, self.place.settings.keep), (6 * 3600, 30))
        drop_in = self.registry.root / "etc/systemd/system/avroreg-backup.timer.d/schedule.conf"
        self.assertEqual(drop_in.read_text(), "[Timer]\nOnCalendar=\nOnCalendar=*-*-* 00/6:00\n")

    def test_a_drill(self):
        self.run_command("backup")
        self.assertIn("0 differ", self.run_command("drill"))
        self.registry.register("new")
        self.assertIn("differ", self.run_command("drill", self.records()[-1]["file"], status=1))
        self.assertIn("GET /subjects", self.run_command("drill", status=1))
        self.refused("drill", "registry-none.db", text="there is no backup")
        damaged = self.registry.root / "damaged.db"
        damaged.write_bytes(b"x" * 9999)
        self.refused("drill", str(damaged), text="can't be restored")
        self.assertEqual([file for file in os.listdir(self.backups) if not file.startswith(("registry-", "last-good"))], [])
        self.place.stop()
        self.refused("drill", text="the running registry: GET", status=2)


    def test_a_killed_drill_leaves_no_server(self):
        script = Path(__file__).resolve().parents[2] / "avroreg-admin"
        folders = lambda: list(self.backups.glob("avroreg-draft-*"))  # noqa: E731
        drill = subprocess.Popen([sys.executable, script, "drill"], stdout=subprocess.DEVNULL, stderr=subprocess.DEVNULL)
        while not any(map(self.is_served, folders())):
            self.assertIsNone(drill.poll())
        drill.kill()
        drill.wait()
        left = folders()[0]
        end = time.monotonic() + 20
        while self.is_served(left):
            self.assertLess(time.monotonic(), end, "the drill's server is left")
            time.sleep(0.05)
        self.run_command("drill", status=1)  # the registry has changed since its backup
        self.assertEqual(folders(), [])

    def is_served(self, folder: Path) -> bool:
        """Whether a process serves a file of this folder."""
        for process in Path("/proc").glob("[0-9]*"):
            with contextlib.suppress(OSError):
                if f"serve\0--db\0{folder}/" in (process / "cmdline").read_text(errors="replace"):
                    return True
        return False


if __name__ == "__main__":
    unittest.main()
