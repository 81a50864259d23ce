"""What the hot copy refuses, and the suspension of a server. tests/copies tries it on a registry that changes."""

import os
import shutil
import signal
import tempfile
import time
import unittest
from pathlib import Path
from unittest import mock

from support import log_of

from avroreg_admin import hot_copy
from avroreg_admin.output import Stop


class CopyCase(unittest.TestCase):
    def setUp(self):
        self.folder = Path(self.enterContext(tempfile.TemporaryDirectory()))
        self.source, self.target = str(self.folder / "registry.db"), str(self.folder / "copy.db")
        Path(self.source).write_bytes(b"pages" * 99999)
        Path(self.source + "-wal").write_bytes(log_of([True] * 9))
        self.enterContext(mock.patch.object(hot_copy, "PAUSE_SECONDS", 0))

    def refused(self, text: str, **more) -> None:
        with self.assertRaises(Stop) as stop:
            hot_copy.copy(self.source, self.target, **more)
        self.assertIn(text, stop.exception.message)

    def left(self) -> list[str]:
        return [name for name in os.listdir(self.folder) if name.startswith("copy")]

    def test_both_files_are_copied(self):
        self.assertEqual(hot_copy.copy(self.source, self.target), 1)
        for suffix in ("", "-wal"):
            self.assertEqual(Path(self.target + suffix).read_bytes(), Path(self.source + suffix).read_bytes())
            self.assertEqual(os.stat(self.target + suffix).st_mode & 0o777, 0o600)

    def test_a_missing_file_or_log(self):
        for suffix in ("", "-wal"):
            shutil.move(self.source + suffix, self.folder / "away")
            self.refused(f"registry.db{suffix} is missing")
            shutil.move(self.folder / "away", self.source + suffix)
        self.assertEqual(self.left(), [])

    def test_a_target_that_exists(self):
        for suffix in ("", "-wal"):
            Path(self.target + suffix).symlink_to("nowhere")
            self.refused("exists already")
            os.unlink(self.target + suffix)

    def test_an_invalid_header(self):
        Path(self.source + "-wal").write_bytes(b"\0" * 999)
        self.refused("wasn't copied in 3 tries: the header of its log is invalid", tries=3, process=os.getpid())
        self.assertEqual(self.left(), [])

    def test_a_log_that_always_begins_anew(self):
        numbers = iter(range(1, 99))

        def copy_file(source, target, real=hot_copy.copy_file):
            real(source, target)
            if source == self.source:
                Path(self.source + "-wal").write_bytes(log_of([True] * next(numbers)).replace(b"abcd", b"abc%c" % next(numbers)))
        with mock.patch.object(hot_copy, "copy_file", copy_file):
            self.refused("wasn't copied in 5 tries", tries=5)
        self.assertEqual(self.left(), [])

    def test_a_full_disk_leaves_nothing(self):
        def copy_file(source, target, real=hot_copy.copy_file):
            real(source, target)
            if source != self.source:
                raise OSError(28, "No space left on device")
        with mock.patch.object(hot_copy, "copy_file", copy_file), self.assertRaises(OSError):
            hot_copy.copy(self.source, self.target)
        self.assertEqual(self.left(), [])


class SuspendedCase(unittest.TestCase):
    """The suspended process is a fork of this one, which only sleeps."""

    def setUp(self):
        self.process = os.fork()
        if self.process == 0:
            time.sleep(60)
            os._exit(0)
        self.addCleanup(lambda: (os.kill(self.process, signal.SIGKILL), os.waitpid(self.process, 0)))

    def is_stopped(self) -> bool:
        return Path(f"/proc/{self.process}/stat").read_text().rpartition(")")[2].split()[0] == "T"

    def becomes(self, stopped: bool) -> bool:
        """Whether the process is soon stopped, or soon goes on: a busy machine delivers signals late."""
        until = time.monotonic() + 10
        while self.is_stopped() != stopped and time.monotonic() < until:
            time.sleep(0.01)
        return self.is_stopped() == stopped

    def test_it_goes_on_after_the_copy_and_after_an_error(self):
        with hot_copy.suspended(self.process):
            self.assertTrue(self.becomes(stopped=True))
        self.assertTrue(self.becomes(stopped=False))
        with self.assertRaises(ZeroDivisionError), hot_copy.suspended(self.process):
            1 / 0
        self.assertTrue(self.becomes(stopped=False))

    def test_it_goes_on_after_some_time(self):
        with self.assertRaises(TimeoutError), hot_copy.suspended(self.process, 0.2):
            time.sleep(30)
        self.assertTrue(self.becomes(stopped=False))


if __name__ == "__main__":
    unittest.main()
