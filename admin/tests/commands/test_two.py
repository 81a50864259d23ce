"""Two people run commands at once: one of the two changes something, the other ends with 75 and the name of the first."""

import os
import unittest

from support import CommandCase, free_port

from avroreg_admin import job
from avroreg_admin.output import BUSY, DONE

CHANGES = (
    ("restore", "--yes"), ("lost-ids", "--count", "5", "--yes"), ("port", "{port}", "--yes"), ("read-only", "on"), ("backup",),
)


class TwoCase(CommandCase):
    def at_once(self, first: tuple[str, ...], second: tuple[str, ...]) -> list[tuple[int, str]]:
        """Runs both commands at once: the second one starts when the first one has the lock, and ends before the first one."""
        has_lock, tells = os.pipe()
        goes_on, lets_go = os.pipe()

        def wait(lock: job.Lock, text: str, say=job.Lock.say) -> None:
            say(lock, text)
            if text:
                os.write(tells, b"x")
                os.read(goes_on, 1)

        pid = os.fork()
        if pid == 0:
            os._exit(self.registry.run_any(*first, prepare=lambda: setattr(job.Lock, "say", wait))[0])
        os.read(has_lock, 1)
        result = self.registry.run_any(*second)
        os.write(lets_go, b"x")
        status = os.waitstatus_to_exitcode(os.waitpid(pid, 0)[1])
        for descriptor in (has_lock, tells, goes_on, lets_go):
            os.close(descriptor)
        return [(status, ""), result]

    def test_of_two_changes_one_is_made(self):
        pairs = [(CHANGES[one], CHANGES[other]) for one in range(4) for other in range(5) if one != other][:10]
        for pair in pairs:
            with self.subTest(pair=pair):
                self.registry.reset(is_served=True)
                words = [tuple(word.format(port=free_port()) for word in command) for command in pair]
                (first, _), (second, printed) = self.at_once(*words)
                self.assertEqual((first, second), (DONE, BUSY), printed)
                self.assertIn(f"runs {pair[0][0]} since", printed)
                self.assertIsNone(job.open_job(self.place))
                self.assertEqual(self.place.ask("GET", "/config")[0], 200)

    def test_a_backup_is_no_change(self):
        self.registry.reset(is_served=True)
        with job.Lock(self.place) as lock:
            lock.say("ops runs restore since 09:17 (pid 4711)")
            self.refused("backup", text="ops runs restore since 09:17 (pid 4711)", status=BUSY)
            self.refused("drill", text="ops runs restore", status=BUSY)
            self.run_command("status", "--json")  # reading commands take no lock
        with job.Lock(self.place, is_shared=True):
            self.refused("restore", "--yes", text="a backup or a drill runs", status=BUSY)


if __name__ == "__main__":
    unittest.main()
