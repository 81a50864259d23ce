"""Whether the old file has every write: only then it is enough to know the lost ids."""

import os
import tempfile
import unittest

from support import PAGE_BYTES, RegistryCase

from avroreg_admin import drafting


class ScratchCase(unittest.TestCase):
    def test_what_a_killed_run_left_is_removed(self):
        folder = self.enterContext(tempfile.TemporaryDirectory())
        for name in (f"avroreg-draft-{os.getpid()}-abc", "avroreg-draft-4194305-abc", "another"):
            os.mkdir(os.path.join(folder, name))
        os.symlink("/", os.path.join(folder, "avroreg-draft-4194306-abc"))
        drafting.remove_left(folder)
        self.assertEqual(set(os.listdir(folder)), {"another", f"avroreg-draft-{os.getpid()}-abc", "avroreg-draft-4194306-abc"})


class WholeCase(RegistryCase):
    def is_whole(self, place: str = "here") -> bool:
        return drafting.is_whole(str(self.database), place)

    def test_a_registry_as_it_was_left_is_whole(self):
        self.assertTrue(self.is_whole())

    def test_without_its_log_it_is_not(self):
        self.log.unlink()
        self.assertFalse(self.is_whole())
        self.assertFalse(self.is_whole(drafting.UNMARKED))

    def test_a_log_that_another_avroreg_copied_into_the_file_is_not_missed(self):
        self.log.unlink()
        self.database.write_bytes(b"a registry with the log")
        self.assertTrue(self.is_whole())

    def test_a_log_that_need_not_be_there(self):
        self.log.unlink()
        self.note(log=False)
        self.assertTrue(self.is_whole())

    def test_a_damaged_log(self):
        data = bytearray(self.log.read_bytes())
        data[32 + 24 + PAGE_BYTES // 2] ^= 1
        self.log.write_bytes(data)
        self.assertFalse(self.is_whole())
        self.assertFalse(self.is_whole(drafting.UNMARKED))

    def test_another_file_and_another_place(self):
        self.assertFalse(self.is_whole("there"))
        self.note(inode=os.stat(self.database).st_ino + 1)
        self.assertFalse(self.is_whole())

    def test_no_mark_and_a_damaged_one(self):
        self.mark.write_text("{")
        self.assertFalse(self.is_whole())
        self.mark.unlink()
        self.assertFalse(self.is_whole())
        self.assertTrue(self.is_whole(drafting.UNMARKED))

    def test_no_file(self):
        self.database.unlink()
        self.assertFalse(self.is_whole())


if __name__ == "__main__":
    unittest.main()
