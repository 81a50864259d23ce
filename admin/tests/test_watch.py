"""What `watch` does in each situation, what it remembers, and its metrics. Nothing is killed here."""

import errno
import json
import re
import unittest
from dataclasses import replace
from pathlib import Path
from unittest import mock

from support import RegistryCase, log_of

from avroreg_admin import facts, front, metrics, pauses, places, repair, seen, server, watch
from avroreg_admin.output import Stop

MONITORING = Path(__file__).resolve().parents[1] / "monitoring"
PAGE = Path(__file__).resolve().parents[2] / "docs/incident.md"
NOW = 1_800_000_000.0
GOOD = watch.Situation(NOW, 200, None, 1 << 30, 64 << 20, 7, True, True, False, False, 100.0, 90)
FAILED = replace(GOOD, status=500, code=50001)
SILENT = replace(GOOD, status=0)
NONE = seen.Recent()


class DecideCase(unittest.TestCase):
    def check(self, now: watch.Situation, wanted: list[str], recent: seen.Recent = NONE):
        self.assertEqual(watch.decide(now, recent), wanted, now)

    def test_a_healthy_registry_is_left_alone(self):
        self.check(GOOD, [])

    def test_little_space_pauses_writes_behind_nginx(self):
        self.check(replace(GOOD, free=(64 << 20) - 1), ["pause"])
        self.check(replace(GOOD, free=64 << 20), [])
        self.check(replace(GOOD, free=0, has_nginx=False), [])
        self.check(replace(GOOD, free=0, is_node=True), [])
        self.check(replace(GOOD, free=0, is_paused=True), [])

    def test_writes_resume_at_twice_the_floor(self):
        self.check(replace(GOOD, is_paused=True, free=(128 << 20) - 1), [])
        self.check(replace(GOOD, is_paused=True, free=128 << 20), ["resume"])
        self.check(replace(FAILED, is_paused=True, free=128 << 20, is_in_place=False), [])

    def test_a_failed_store_restarts(self):
        self.check(FAILED, ["pause", "restart"])
        self.check(replace(FAILED, free=0), ["pause", "restart"])
        self.check(replace(FAILED, is_paused=True), ["restart"])

    def test_without_nginx_it_restarts_once_there_is_space(self):
        self.check(replace(FAILED, has_nginx=False, free=0), [])
        self.check(replace(FAILED, has_nginx=False), ["restart"])
        self.check(replace(FAILED, is_node=True), ["restart"])

    def test_at_most_three_restarts_an_hour(self):
        self.check(FAILED, ["pause", "restart"], seen.Recent(restarts=[NOW, NOW]))
        self.check(FAILED, ["pause"], seen.Recent(restarts=[NOW, NOW, NOW]))

    def test_a_removed_file_is_never_killed(self):
        self.check(replace(FAILED, is_in_place=False), ["pause"])
        self.check(replace(FAILED, pid=None), ["pause"])

    def test_a_check_that_blocks_is_ended(self):
        recent = seen.Recent(silent_since=NOW - 90, silent_processor=10.0, pid=7)
        self.check(SILENT, ["restart"], recent)
        self.check(replace(SILENT, now=NOW - 1), [], recent)
        self.check(replace(SILENT, processor=90.0), [], recent)
        self.check(replace(SILENT, has_nginx=False), [], recent)
        self.check(replace(SILENT, is_node=True), [], recent)
        self.check(replace(SILENT, is_in_place=False), [], recent)

    def test_a_suspended_server_goes_on(self):
        recent = seen.Recent(silent_since=NOW - 60, silent_processor=100.0, pid=7)
        self.check(SILENT, ["wake"], recent)
        self.check(SILENT, [], replace(recent, silent_since=NOW - 29))

    def test_silence_is_remembered_of_one_process(self):
        first = watch.silence(SILENT, NONE)
        self.assertEqual((first.silent_since, first.silent_processor, first.pid), (NOW, 100.0, 7))
        later = replace(SILENT, now=NOW + 60, processor=160.0)
        self.assertEqual(watch.silence(later, first), first)
        self.assertEqual(watch.silence(replace(later, pid=8), first).silent_since, NOW + 60)
        self.assertIsNone(watch.silence(replace(later, status=200), first).silent_since)


class RememberCase(RegistryCase):
    def setUp(self):
        super().setUp()
        self.place = places.Local("default", self.root)
        for folder in (self.place.metrics, pauses.watch_file(self.place).parent):
            folder.mkdir(parents=True)
        self.ids = {1, 2, 3, 20, 50}
        self.place.ask = lambda _, path: (200 if int(path.rpartition("/")[2]) in self.ids else 404, {})

    def test_the_greatest_id_is_found_over_holes(self):
        self.assertEqual(seen.greatest_id(self.place, 0), 3)
        self.assertEqual(seen.greatest_id(self.place, 4), 20)
        self.ids |= set(range(1, 300))
        self.assertEqual(seen.greatest_id(self.place, 3), 299)

    def test_a_silent_server_ends_the_search(self):
        self.place.ask = lambda *_: (0, None)
        self.assertEqual(seen.greatest_id(self.place, 5), 5)

    def found(self) -> facts.Facts:
        return facts.Facts("default", now=NOW, probe=facts.Probe(200), looked=seen.look(str(self.database)), recent=seen.Recent(), pid=7,
                           backups={"records": [{"schemas": 2, "audit": "holds"}]})

    def test_header_and_greatest_id_are_saved(self):
        watch.remember(self.place, self.found())
        saved = json.loads(self.place.seen_file.read_text())
        self.assertEqual((saved["header"], saved["greatest_id"], saved["place"]), (self.log.read_bytes()[:32].hex(), 3, "here"))

    def test_a_damaged_header_keeps_the_saved_one(self):
        watch.remember(self.place, self.found())
        good = self.log.read_bytes()[:32].hex()
        self.log.write_bytes(b"x" * 32 + self.log.read_bytes()[32:])
        watch.remember(self.place, self.found())
        self.assertEqual(json.loads(self.place.seen_file.read_text())["header"], good)

    def test_what_was_seen_of_another_registry_is_forgotten(self):
        self.write(self.place.seen_file, {"place": "there", "greatest_id": 900})
        watch.remember(self.place, self.found())
        self.assertEqual(json.loads(self.place.seen_file.read_text())["greatest_id"], 3)

    def test_only_restarts_of_the_last_hour_count(self):
        found = self.found()
        found.recent.restarts = [NOW - 3601, NOW - 3599, NOW + 9]
        watch.remember(self.place, found)
        self.assertEqual(found.recent.restarts, [NOW - 3599])

    def test_damaged_notes_are_as_missing_ones(self):
        for text in ("", "[]", "{", '{"unknown": 1}', '{"restarts": 7, "pid": "x", "launch": 1, "silent_since": [], "log": true}', '{"restarts": ["x", {}]}'):
            seen.recent_file(self.place).write_text(text)
            self.assertEqual(seen.recent_of(self.place), seen.Recent())
        kept = seen.Recent([NOW], NOW, 1.5, 7, "a", 2)
        seen.save_recent(self.place, kept)
        self.assertEqual(seen.recent_of(self.place), kept)

    def test_a_pause_keeps_its_time_and_its_reason(self):
        file = pauses.watch_file(self.place)
        pauses.begin(str(file), pauses.DISK_FULL)
        first = pauses.of_watch(self.place)
        pauses.begin(str(file), pauses.STORE_FAILED)
        self.assertEqual((pauses.of_watch(self.place), first.by, first.reason), (first, "watch", "disk-full"))
        pauses.end(str(file))
        self.assertEqual(pauses.found(self.place), [])

    def test_a_unit_that_starts_or_stops_is_left_alone(self):
        self.assertEqual([server.only_one(pids) for pids in ("7\n", "7\n8\n", "")], [7, None, None])

    def test_nginx_is_on_if_its_configuration_has_the_pause_file(self):
        self.assertFalse(front.is_on(self.place))
        file = self.root / "etc/nginx/conf.d/avroreg.conf"
        file.parent.mkdir(parents=True)
        file.write_text("1 /run/avroreg/orders/paused;")
        self.assertFalse(front.is_on(self.place))
        file.write_text("1 /run/avroreg/default/paused;")
        self.assertTrue(front.is_on(self.place))

    def test_metrics_are_overwritten_on_a_full_disk(self):
        file = self.place.metrics_file
        self.assertTrue(metrics.write(str(file), "old\n"))
        full = OSError(errno.ENOSPC, "full")
        with mock.patch.object(metrics, "write_text", side_effect=full):
            self.assertTrue(metrics.write(str(file), "new and longer\n"))
            self.assertEqual(file.read_text(), "new and longer\n")
            self.assertFalse(metrics.write(str(file), "x" * 100_000))
            self.assertFalse(metrics.write(str(file) + ".none", "x"))

    def test_labels_are_escaped_and_name_the_registry(self):
        made = metrics.Metrics("orders")
        made.gauge("requests", "Requests.", ({"user": 'a"\n'}, 1))
        self.assertEqual(made.lines[-1], 'avroreg_requests{registry="orders",user="a\\"\\n"} 1')

    def test_requests_are_counted_by_checked_users(self):
        log = self.root / "access.log"
        log.write_text('{"user":"ci","status":200,"upstream_status":"200"}\n{"user":"ci","status":200,"upstream_status":""}\n'
                       '{"user":"invented","status":401,"upstream_status":""}\nhalf a line\n[]\n' + "[" * 100_000 + "\n")
        made = metrics.Metrics("default")
        metrics.of_requests(made, log)
        self.assertEqual(made.lines[2:], ['avroreg_requests{user="-",status="401"} 1', 'avroreg_requests{user="ci",status="200"} 2'])


class MonitoringCase(RegistryCase):
    """The alerts and the dashboard name only metrics that watch writes, and each alert leads to its problem on the page."""

    def text(self) -> str:
        place = places.Local("default", self.root)
        newest = {"time": 1, "subjects": 1, "versions": 1, "schemas": 1, "expected": 1, "audit": "holds"}
        place.access_log.parent.mkdir(parents=True)
        place.access_log.write_text('{"status":200}\n')
        found = facts.Facts("default", now=NOW, pid=7, looked=seen.look(str(self.database)), subjects=1, greatest_id=1,
                            usage=server.Usage(1, 1), backups={"records": [newest]})
        with mock.patch.object(front, "certificate_end", return_value=1.0):
            return metrics.of(place, found)

    def test_each_metric_of_the_rules_has_its_value(self):
        place = places.Local("default", self.root)
        place.settings_file.parent.mkdir(parents=True)
        place.settings_file.write_text("AVROREG_BACKUP_INTERVAL=3600\n")
        self.write(self.state / "offsite.json", {"good": 5, "good_file": "x", "status": 0, "time": 5})
        with mock.patch.object(facts, "probe", return_value=facts.Probe()):
            written = metrics.of(place, watch.measure(place))
        self.assertIn(f"avroreg_backup_interval_seconds {place.settings.backup_interval}\n", written)
        self.assertIn("avroreg_offsite_timestamp_seconds 5\n", written)

    def test_rules_and_dashboard_name_existing_metrics(self):
        written = set(re.findall(r"^# TYPE (avroreg_\w+) gauge$", self.text(), re.MULTILINE))
        for file in ("alerts.yml", "dashboard.json"):
            named = set(re.findall(r"avroreg_\w+", (MONITORING / file).read_text(encoding="utf-8")))
            self.assertEqual(named - written, set(), file)

    def test_each_alert_leads_to_its_problem(self):
        page = PAGE.read_text(encoding="utf-8")
        sections = {re.sub(r"[^a-z0-9 -]", "", section.partition("\n")[0].lower()).replace(" ", "-"): section for section in page.split("\n## ")[1:]}
        rules = (MONITORING / "alerts.yml").read_text(encoding="utf-8").split("- alert: ")[1:]
        self.assertEqual(len(rules), 11)
        for rule in rules:
            name = rule.partition("\n")[0]
            finding, anchor = re.search(r"finding: ([a-z-]+)", rule)[1], re.search(r"runbook_url: \S+/docs/incident\.md#([a-z-]+)", rule)[1]
            self.assertIn(f"`{finding}`", sections[anchor], name)
            self.assertIn(f"`{name}`", page, name)

    def test_the_dashboard_is_json(self):
        self.assertEqual(len(json.loads((MONITORING / "dashboard.json").read_text(encoding="utf-8"))["panels"]), 6)


class HeaderCase(RegistryCase):
    """A header is taken only from a saved one that the frames continue."""

    def setUp(self):
        super().setUp()
        self.good = self.log.read_bytes()
        self.header = self.good[:32].hex()

    def test_a_damaged_header_is_replaced_byte_for_byte(self):
        for at in range(32):
            self.log.write_bytes(self.good[:at] + bytes([self.good[at] ^ 1]) + self.good[at + 1:])
            repair.mend(str(self.log), self.header)
            self.assertEqual(self.log.read_bytes(), self.good)

    def test_a_damaged_first_frame_is_refused(self):
        for at in (*range(32, 64), 300, 500):
            self.log.write_bytes(bytes(32) + self.good[32:at] + bytes([self.good[at] ^ 1]) + self.good[at + 1:])
            with self.assertRaises(Stop, msg=str(at)):
                repair.mend(str(self.log), self.header)

    def test_the_header_of_an_earlier_log_is_refused(self):
        with mock.patch("support.SALTS", b"\x00\x00\x00\x02abcd"):
            self.log.write_bytes(bytes(32) + log_of([True, True])[32:])
        before = self.log.read_bytes()
        with self.assertRaises(Stop):
            repair.mend(str(self.log), self.header)
        self.assertEqual(self.log.read_bytes(), before)

    def test_an_invalid_or_missing_saved_header_is_refused(self):
        for saved in (None, "00" * 32, self.header[:-2] + "00"):
            with self.assertRaises(Stop):
                repair.mend(str(self.log), saved)

    def test_later_damage_is_refused(self):
        broken = bytearray(self.good)
        broken[32 + 536 + 100] ^= 1
        self.log.write_bytes(bytes(32) + bytes(broken[32:]))
        with self.assertRaises(Stop):
            repair.mend(str(self.log), self.header)

    def test_a_valid_log_of_a_copy_stays(self):
        repair.mend_copy(str(self.log), None)
        self.assertEqual(self.log.read_bytes(), self.good)


if __name__ == "__main__":
    unittest.main()
