"""What difference.txt names."""

import unittest

import support  # noqa: F401  (it names the folder of the modules)

from avroreg_admin.difference import compare


class DifferenceCase(unittest.TestCase):
    def test_each_kind_of_difference_is_named(self):
        old = {("version", "s", 1): (1, True), ("version", "s", 2): (2, False), ("version", "s", 3): (4, False), ("level", "s", 0): "FULL",
               ("level", "", 0): "NONE", ("mode", "t", 0): "READONLY"}
        restored = {("version", "s", 1): (1, False), ("version", "s", 2): (2, True), ("version", "u", 1): (3, False), ("level", "", 0): "BACKWARD",
                    ("mode", "u", 0): "READONLY"}
        self.assertEqual(compare(old, restored), [
            "version 1 of s was deleted, and is there again",
            "version 2 of s was there, and is deleted",
            "version 3 of s, id 4, is lost",
            "version 1 of u, id 3, is back: it was deleted permanently",
            "level of the registry: it was NONE, and is BACKWARD",
            "level of s: it was FULL, and is not set",
            "mode of t: it was READONLY, and is not set",
            "mode of u: it was not set, and is READONLY"])

    def test_equal_registries_have_no_lines(self):
        self.assertEqual(compare({("level", "", 0): "NONE"}, {("level", "", 0): "NONE"}), [])

    def test_another_id_is_named(self):
        self.assertEqual(compare({("version", "s", 1): (1, False)}, {("version", "s", 1): (2, False)}), ["version 1 of s had id 1, and has id 2"])


if __name__ == "__main__":
    unittest.main()
