"""How many ids nginx's log has since a backup: the line at which counting begins, and what counts."""

import gzip
import json
import tempfile
import unittest
from datetime import datetime
from pathlib import Path

import support  # noqa: F401  (it names the folder of the modules)

from avroreg_admin import nginx_log

SINCE = datetime.fromisoformat("2026-11-28T02:30:00+00:00")


def entry(time: str, method: str = "POST", path: str = "/subjects/s/versions", status: int = 200, user: str = "") -> str:
    return json.dumps({"time": time, "client": "::1", "user": user, "method": method, "path": path, "status": status, "bytes": 8})


class CountCase(unittest.TestCase):
    def since(self, *lines: str) -> nginx_log.Since:
        return nginx_log.read_since(lines, SINCE)

    def test_registrations_after_the_backup_count(self):
        found = self.since(entry("2026-11-28T00:00:00+00:00"), entry("2026-11-28T04:29:50+02:00"), entry("2026-11-27T21:30:00-05:00"),
                           entry("2026-11-28T03:00:00+00:00", path="/subjects/s/versions?normalize=false"))
        self.assertEqual((found.registrations, found.unreadable, found.set_back), (2, 0, None))

    def test_a_response_that_never_came_counts_and_a_refusal_does_not(self):
        after = "2026-11-28T03:00:00+00:00"
        for status, counts in ((200, 1), (499, 1), (502, 1), (504, 1), (409, 0), (422, 0), (404, 0), (401, 0)):
            self.assertEqual(self.since(entry(after, status=status)).registrations, counts, status)

    def test_lookups_checks_and_reads_do_not_count(self):
        after = "2026-11-28T03:00:00+00:00"
        found = self.since(entry(after, path="/subjects/s"), entry(after, path="/compatibility/subjects/s/versions"), entry(after, "GET"))
        self.assertEqual((found.ids, found.writes), (0, []))

    def test_a_clock_that_was_set_back_after_the_backup(self):
        """The first line after the backup is newer; then the clock goes back by an hour. All eleven registrations count."""
        back = [entry(f"2026-11-28T01:{minute:02}:00+00:00") for minute in range(35, 45)]
        found = self.since(entry("2026-11-28T02:00:00+00:00"), entry("2026-11-28T02:31:00+00:00"), *back)
        self.assertEqual(found.registrations, 11)
        self.assertEqual(found.set_back, datetime.fromisoformat("2026-11-28T01:35:00+00:00"))

    def test_a_clock_that_was_set_back_before_any_later_line(self):
        found = self.since(entry("2026-11-28T02:29:00+00:00"), entry("2026-11-28T01:00:00+00:00"), entry("2026-11-28T01:01:00+00:00"))
        self.assertEqual(found.registrations, 2)

    def test_lines_in_another_order_by_some_seconds_are_no_set_clock(self):
        found = self.since(entry("2026-11-28T01:00:03+00:00"), entry("2026-11-28T01:00:00+00:00"), entry("2026-11-28T02:29:58+00:00"))
        self.assertEqual((found.registrations, found.set_back), (1, None))

    def test_lines_that_can_not_be_read_count_from_the_backup_on(self):
        cut = '{"time":"2026-11-28T03:00:07+00:00","cli'
        self.assertEqual(self.since(cut, cut, entry("2026-11-28T01:00:00+00:00"), entry("2026-11-28T01:00:01+00:00")).ids, 0)
        self.assertEqual(self.since(entry("2026-11-28T01:00:00+00:00"), cut, entry("2026-11-28T03:00:00+00:00")).ids, 2)
        self.assertEqual(self.since(entry("2026-11-28T01:00:00+00:00"), cut).ids, 1)
        for line in ("", "[]", "null", "{}", '{"time":"2026-11-28T03:00:00","method":"POST"}', "[" * 9999):
            self.assertIsNone(nginx_log.entry_of(line), line[:20])

    def test_writes_are_listed(self):
        after = "2026-11-28T03:00:00+00:00"
        found = self.since(entry(after, user="ops"), entry(after, "DELETE", "/subjects/s"), entry(after, "PUT", "/config", status=422))
        self.assertEqual([(write.method, write.user) for write in found.writes], [("POST", "ops"), ("DELETE", "")])


class FilesCase(unittest.TestCase):
    def setUp(self):
        self.folder = Path(self.enterContext(tempfile.TemporaryDirectory()))
        self.log = self.folder / "avroreg.log"

    def test_older_files_come_first(self):
        names = ["avroreg.log", "avroreg.log.1", "avroreg.log.2.gz", "avroreg.log.10.gz", "avroreg.log-20261126.gz", "avroreg.log-20261127"]
        for name in [*names, "avroreg.log.swp", "avroreg.log.1.gz.tmp", "avroreg-orders.log", "avroreg.logs.1"]:
            (self.folder / name).touch()
        self.assertEqual([file.name for file in nginx_log.rotated(self.log)],
                         ["avroreg.log-20261126.gz", "avroreg.log-20261127", "avroreg.log.10.gz", "avroreg.log.2.gz", "avroreg.log.1", "avroreg.log"])

    def test_packed_and_plain_files_are_one_log(self):
        with gzip.open(self.folder / "avroreg.log.2.gz", "wt") as file:
            print(entry("2026-11-28T01:00:00+00:00"), entry("2026-11-28T02:40:00+00:00"), sep="\n", file=file)
        (self.folder / "avroreg.log.1").write_text(entry("2026-11-28T02:50:00+00:00") + "\n")
        self.log.write_text(entry("2026-11-28T03:00:00+00:00") + "\n")
        found = nginx_log.since(self.log, SINCE)
        self.assertEqual((found.registrations, found.first), (3, datetime.fromisoformat("2026-11-28T01:00:00+00:00")))

    def test_no_log_and_another_log_tell_nothing(self):
        self.assertIsNone(nginx_log.since(self.log, SINCE))
        self.log.write_text('::1 - - [28/Nov/2026:03:00:00 +0000] "GET / HTTP/1.1" 200 12\n')
        self.assertIsNone(nginx_log.since(self.log, SINCE))

    def test_a_link_is_not_followed(self):
        (self.folder / "other").write_text(entry("2026-11-28T03:00:00+00:00") + "\n")
        self.log.symlink_to("other")
        with self.assertRaises(OSError):
            nginx_log.since(self.log, SINCE)


if __name__ == "__main__":
    unittest.main()
