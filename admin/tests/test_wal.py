"""The log's header and chain: what the next start would drop, and what is a torn end only."""

import struct
import tempfile
import unittest
from pathlib import Path

from support import PAGE_BYTES, log_of

from avroreg_admin import wal

FRAME_BYTES = wal.FRAME_HEADER_BYTES + PAGE_BYTES


class LogCase(unittest.TestCase):
    def setUp(self):
        self.path = Path(self.enterContext(tempfile.TemporaryDirectory()), "registry.db-wal")

    def fault(self, data: bytes, page_bytes: int = 0) -> str:
        self.path.write_bytes(data)
        return wal.fault_of(self.path, page_bytes)

    def flipped(self, data: bytes, at: int) -> bytes:
        return data[:at] + bytes([data[at] ^ 1]) + data[at + 1:]

    def test_a_whole_log_has_no_fault(self):
        self.assertEqual(self.fault(log_of([True] * 9)), "")
        self.assertEqual(self.fault(log_of([False, False, True])), "")
        self.assertEqual(self.fault(log_of([True]), PAGE_BYTES), "")

    def test_a_missing_or_short_log_has_no_frame(self):
        self.assertEqual(wal.fault_of(self.path), "")
        log = log_of([True])
        for length in (0, 1, 31, 32, 41, 55):
            self.assertEqual(self.fault(b"\0" * length), "")
            self.assertEqual(self.fault(log[:length]), "")

    def test_each_flipped_bit_of_the_header_is_found(self):
        log = log_of([True, True, True])
        for at in range(wal.HEADER_BYTES):
            self.assertIn("header of", self.fault(self.flipped(log, at)), at)
        self.assertIn("header of", self.fault(b"\0" * 56))

    def test_a_log_of_other_pages_is_not_the_registry_s(self):
        self.assertIn("header of", self.fault(log_of([True, True]), 4096))

    def test_a_break_before_two_later_commits_is_found(self):
        log = log_of([True] * 9)
        for number in range(7):
            text = self.fault(self.flipped(log, wal.HEADER_BYTES + number * FRAME_BYTES + 100))
            self.assertIn(f"damaged after frame {number}: {9 - number} later writes", text)

    def test_one_commit_behind_a_break_is_a_torn_end(self):
        log = log_of([True] * 9)
        self.assertEqual(self.fault(self.flipped(log, wal.HEADER_BYTES + 8 * FRAME_BYTES + 100)), "")
        self.assertEqual(self.fault(log[:-1]), "")
        self.assertEqual(self.fault(log[:-FRAME_BYTES - 1]), "")
        several = log_of([True, True, False, False, False, True])
        self.assertEqual(self.fault(self.flipped(several, wal.HEADER_BYTES + 2 * FRAME_BYTES + 100)), "")

    def test_frames_of_an_earlier_log_do_not_count(self):
        """After a checkpoint, the log begins anew with other salts. Behind its end, frames of the earlier log are left."""
        earlier, log = log_of([True] * 9), log_of([True, True])
        old = bytearray(earlier)
        for number in range(9):
            at = wal.HEADER_BYTES + number * FRAME_BYTES + 8
            old[at:at + 8] = b"\0\0\0\0efgh"
        self.assertEqual(self.fault(log + bytes(old[len(log):])), "")
        self.assertIn("damaged after frame 2", self.fault(log + earlier[len(log) + FRAME_BYTES:]))

    def test_checksums_of_either_order_of_bytes(self):
        front = struct.pack(">4I", 0x377F0682, 3007000, 4096, 1) + b"abcdefgh"
        first = second = 0
        for even, odd in struct.iter_unpack("<2I", front):
            first = first + even + second & 0xFFFFFFFF
            second = second + odd + first & 0xFFFFFFFF
        header = front + struct.pack(">2I", first, second)
        self.assertTrue(wal.is_valid(header))
        self.assertFalse(wal.is_valid(b"\x37\x7f\x06\x83" + header[4:]))
        self.path.write_bytes(header)
        self.assertEqual(wal.valid_header(self.path), header)

    def test_a_link_is_not_followed(self):
        self.path.symlink_to("/etc/passwd")
        with self.assertRaises(OSError):
            wal.fault_of(self.path)
        with self.assertRaises(OSError):
            wal.valid_header(self.path)


if __name__ == "__main__":
    unittest.main()
