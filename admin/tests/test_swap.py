"""The renames of a swap, and how it is known how far they came."""

import os
import tempfile
import unittest
from pathlib import Path

import support  # noqa: F401  (it names the folder of the modules)

from avroreg_admin import marking, swap
from avroreg_admin.output import Stop


class SwapCase(unittest.TestCase):
    def setUp(self):
        self.folder = Path(self.enterContext(tempfile.TemporaryDirectory()))
        self.database, self.job = str(self.folder / "registry.db"), str(self.folder / "jobs/1")
        os.makedirs(f"{self.job}/new")
        for name in ("registry.db", "registry.db-wal", "registry.db-journal"):
            (self.folder / name).write_text(f"old {name}")
        marking.put(self.database, "here")
        self.draft = Path(self.job, "new", "registry.db")
        self.draft.write_text("draft")
        swap.finish_draft(self.job, {"subjects": 1})
        self.before = self.files()

    def files(self) -> dict[str, bytes]:
        return {str(file.relative_to(self.folder)): file.read_bytes() for file in self.folder.rglob("*") if file.is_file() and file.name != "registry.mark"}

    def test_there_and_back(self):
        self.assertFalse(swap.is_moved(self.database, self.job))
        swap.swap(self.database, self.job, "here", "1")
        self.assertTrue(swap.is_moved(self.database, self.job))
        self.assertEqual(Path(self.database).read_text(), "draft")
        self.assertEqual(sorted(os.listdir(f"{self.job}/old")), ["registry.db", "registry.db-journal", "registry.db-wal", "registry.mark"])
        swap.swap(self.database, self.job, "here", "1")  # again, as after a kill
        self.assertEqual(Path(self.database).read_text(), "draft")
        for _ in range(2):
            swap.put_back(self.database, self.job, "1")
            self.assertEqual(self.files(), self.before)

    def test_another_file_is_not_the_draft(self):
        """After a part of an undo: the draft is gone, its note is left, and F is the old one."""
        self.draft.unlink()
        self.assertFalse(swap.is_moved(self.database, self.job))
        swap.put_back(self.database, self.job, "1")
        self.assertEqual(Path(self.database).read_text(), "old registry.db")

    def test_the_note_goes_before_the_draft(self):
        swap.remove_draft(self.job)
        self.assertFalse(Path(self.job).exists())
        self.assertEqual(Path(self.database).read_text(), "old registry.db")

    def test_without_a_whole_draft_nothing_moves(self):
        Path(self.job, "new", "ready.json").unlink()
        with self.assertRaises(Stop):
            swap.swap(self.database, self.job, "here", "1")
        self.assertEqual(Path(self.database).read_text(), "old registry.db")

    def test_a_file_that_another_program_made_is_not_replaced(self):
        os.makedirs(f"{self.job}/old")
        Path(self.job, "old", "registry.db").write_text("older")
        for act in (lambda: swap.swap(self.database, self.job, "here", "1"), lambda: swap.put_back(self.database, self.job, "1")):
            with self.assertRaises(Stop):
                act()
        self.assertEqual(Path(self.job, "old", "registry.db").read_text(), "older")


if __name__ == "__main__":
    unittest.main()
