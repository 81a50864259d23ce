"""What the tests of commands share: a registry for each class, and the case that uses it."""

import sys
import tempfile
import unittest
import warnings
from pathlib import Path

sys.path.insert(0, str(Path(__file__).resolve().parent.parent))

from local import MEMORY, Registry, forked, free_port, state_of  # noqa: E402, F401


class CommandCase(unittest.TestCase):
    """Each class makes a registry once. `reset` in a test gives a copy of it."""

    @classmethod
    def setUpClass(cls):
        cls.registry = Registry(Path(cls.enterClassContext(tempfile.TemporaryDirectory(dir=MEMORY, prefix="avroreg-commands-"))))
        cls.addClassCleanup(cls.registry.kill_servers)

    def setUp(self):
        warnings.simplefilter("ignore", ResourceWarning)  # servers run on, as systemd's do
        self.registry.use()

    @property
    def place(self):
        return self.registry.place

    def run_command(self, *words: str, status: int = 0, **more) -> str:
        return self.registry.run(*words, status=status, **more)

    def refused(self, *words: str, text: str, status: int = 1, **more) -> None:
        """The command ends with this status, and prints this text and no traceback."""
        printed = self.run_command(*words, status=status, **more)
        self.assertIn(text, printed)
        self.assertNotIn("raceback", printed)

    def script(self, name: str, text: str) -> str:
        """A program of the test in the place of avroreg."""
        file = self.registry.root / name
        file.write_text(f"#!/bin/sh\n{text}\n", encoding="utf-8")
        file.chmod(0o755)
        return str(file)
