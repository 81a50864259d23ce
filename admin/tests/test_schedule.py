"""The times of backups, and the longest interval between two."""

import shutil
import unittest

import support  # noqa: F401  (it names the folder of the modules)

from avroreg_admin import schedule
from avroreg_admin.output import Stop


@unittest.skipIf(shutil.which("systemd-analyze") is None, "needs systemd-analyze")
class ScheduleCase(unittest.TestCase):
    def interval(self, calendar: str) -> int:
        return schedule.longest_interval(schedule.runs_of(calendar))

    def test_intervals(self):
        self.assertEqual(self.interval("*-*-* 02:30"), 86400)
        self.assertEqual(self.interval("*-*-* 00/6:00"), 6 * 3600)
        self.assertEqual(self.interval("Mon..Fri 02:30"), 3 * 86400)
        self.assertEqual(self.interval("hourly"), 3600)

    def test_what_is_no_calendar_expression(self):
        for text in ("", "at night", "25:00", "-h"):
            with self.assertRaises(Stop) as stop:
                schedule.runs_of(text)
            self.assertEqual(stop.exception.status, 64)


if __name__ == "__main__":
    unittest.main()
