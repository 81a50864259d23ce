"""The order of backups, which ones go, and what a wrong clock or a damaged file does."""

import json
import os
import tempfile
import time
import unittest
from dataclasses import asdict
from pathlib import Path

import support  # noqa: F401  (it names the folder of the modules)

from avroreg_admin import archive, checked_copy
from avroreg_admin.archive import Archive, Record
from avroreg_admin.output import Stop


def record(number: int, schemas: int, file: str = "", **more) -> Record:
    values = {"baseline": 1, "expected": schemas, "time": number} | more
    return Record(number=number, file=file or f"registry-{number}.db", subjects=1, versions=1, schemas=schemas, bytes=1, sha256="", **values)


class OrderCase(unittest.TestCase):
    def removable(self, keep: int, *records: Record) -> list[int]:
        return [gone.number for gone in Archive(list(records)).removable(keep)]

    def test_the_oldest_go(self):
        records = [record(number, number) for number in range(1, 6)]
        self.assertEqual(self.removable(2, *records), [1, 2, 3])
        self.assertEqual(self.removable(9, *records), [])
        self.assertEqual(self.removable(0, *records), [1, 2, 3, 4])

    def test_the_fullest_and_pinned_ones_stay(self):
        records = [record(1, 9), record(2, 3), record(3, 4, pinned="before 0.2.0"), record(4, 4), record(5, 4)]
        self.assertEqual(self.removable(1, *records), [2, 4])

    def test_seven_backups_of_2030_and_then_a_right_clock(self):
        """The backup of this run is the newest one, whatever the names and times say, and it stays."""
        wrong = [record(number, 9, f"registry-2030010{number}T000000Z.db", time=1893456000 + number) for number in range(1, 8)]
        now = record(8, 4, "registry-20261128T000000Z.db", time=1795824000)
        found = Archive([*wrong, now])
        self.assertEqual(found.newest, now)
        self.assertEqual(found.fullest, wrong[-1])
        self.assertNotIn(now, found.removable(7))
        self.assertEqual(self.removable(7, *wrong, now), [1])
        self.assertEqual(len(found.from_future(1795824000)), 7)

    def test_a_failed_audit_is_neither_good_nor_removed(self):
        records = [record(1, 4), record(2, 9, audit="fails"), record(3, 4)]
        self.assertEqual(Archive(records).newest.number, 3)
        self.assertEqual(Archive(records).fullest.number, 3)
        self.assertEqual(self.removable(1, *records), [1])

    def test_accepted_fewer_schemas_end_the_comparison(self):
        before = Archive([record(1, 9)])
        self.assertEqual(archive.counted(record(0, 4), before, "").expected, 9)
        accepted = archive.counted(record(0, 4), before, "new registry for test")
        self.assertEqual((accepted.number, accepted.baseline, accepted.expected), (2, 2, 4))
        later = archive.counted(record(0, 5), Archive([record(1, 9), accepted]), "")
        self.assertEqual((later.number, later.baseline, later.expected), (3, 2, 5))
        self.assertEqual(Archive([record(1, 9), accepted, later]).fullest, later)

    def test_an_empty_archive(self):
        self.assertIsNone(Archive().newest)
        self.assertIsNone(Archive().fullest)
        self.assertEqual(self.removable(1), [])
        self.assertEqual(archive.counted(record(0, 4), Archive(), "").number, 1)


class FolderCase(unittest.TestCase):
    def setUp(self):
        self.folder = self.enterContext(tempfile.TemporaryDirectory())

    def add(self, made: Record, at: float | None = None) -> None:
        file = Path(self.folder, made.file)
        file.write_bytes(b"x")
        if at:
            os.utime(file, (at, at))
        archive.save(self.folder, made)

    def test_records_give_the_order(self):
        self.add(record(2, 4, "registry-20261128T000000Z.db"))
        self.add(record(1, 4, "registry-20300101T000000Z.db"))
        self.assertEqual([found.number for found in archive.read(self.folder).records], [1, 2])

    def test_a_damaged_record_is_as_none(self):
        for text in ("", "{", "[]", "null", "5", '{"number":1}', json.dumps(asdict(record(1, 4, "other.db"))), json.dumps(asdict(record(0, 4, "registry-1.db"))),
                     json.dumps(asdict(record(1, 4, "registry-1.db")) | {"schemas": "4"}), json.dumps(asdict(record(1, 4, "registry-1.db")) | {"number": True})):
            Path(self.folder, "registry-1.db").write_bytes(b"x")
            Path(self.folder, "registry-1.json").write_text(text)
            found = archive.read(self.folder)
            self.assertEqual((found.records, found.unrecorded), ([], ["registry-1.db"]), text)

    def test_a_link_is_no_backup(self):
        Path(self.folder, "registry-1.db").symlink_to("/etc/passwd")
        self.assertEqual(archive.read(self.folder), Archive())

    def test_a_damaged_note_is_written_anew(self):
        self.add(record(1, 4))
        for text in ("", "{", "[1]", '"x"'):
            Path(self.folder, "last-good.json").write_text(text)
            archive.note(self.folder, archive.read(self.folder))
            self.assertEqual(json.loads(Path(self.folder, "last-good.json").read_text())["file"], "registry-1.db")

    def test_a_record_without_its_backup_goes(self):
        self.add(record(1, 4))
        self.add(record(2, 4))
        Path(self.folder, "registry-2.db").unlink()
        archive.remove_orphans(self.folder)
        self.assertEqual(sorted(os.listdir(self.folder)), ["registry-1.db", "registry-1.json"])

    def test_prune_says_what_it_would_remove(self):
        for number in (1, 2, 3):
            self.add(record(number, 4))
        going = archive.prune(self.folder, 1, is_dry=True)
        self.assertEqual([gone["number"] for gone in going], [1, 2])
        self.assertEqual(len(archive.read(self.folder).records), 3)
        archive.prune(self.folder, 1)
        self.assertEqual(sorted(os.listdir(self.folder)), ["last-good.json", "registry-3.db", "registry-3.json"])

    def test_a_pinned_backup_stays_until_it_is_unpinned(self):
        for number in (1, 2):
            self.add(record(number, 4))
        archive.pin(self.folder, "registry-1.db", "before 0.2.0")
        self.assertEqual(archive.prune(self.folder, 1), [])
        archive.pin(self.folder, "registry-1.db", "")
        self.assertEqual(len(archive.prune(self.folder, 1)), 1)
        with self.assertRaises(Stop):
            archive.pin(self.folder, "registry-9.db", "x")

    def test_one_backup_at_a_time(self):
        with archive.locked(self.folder), self.assertRaises(Stop) as busy:
            archive.prune(self.folder, 1)
        self.assertEqual(busy.exception.status, 75)

    def test_two_backups_in_a_second_have_two_names(self):
        now = time.time()
        first = archive.free_name(self.folder, now)
        Path(self.folder, first).touch()
        self.assertNotEqual(archive.free_name(self.folder, now), first)

    def test_files_are_for_their_owner_only(self):
        self.add(record(1, 4))
        archive.note(self.folder, archive.read(self.folder))
        for name in ("registry-1.json", "last-good.json"):
            self.assertEqual(Path(self.folder, name).stat().st_mode & 0o777, 0o600)

    def test_what_an_earlier_run_left_is_removed(self):
        Path(self.folder, "unfinished-abc").mkdir()
        Path(self.folder, "unfinished-abc", "registry-1.db").touch()
        Path(self.folder, "unfinished-1.db").touch()
        with checked_copy.unfinished(self.folder) as made:
            self.assertEqual(os.listdir(self.folder), [made.name])
        self.assertEqual(os.listdir(self.folder), [])

    def test_a_person_hears_of_fewer_schemas_and_of_the_future(self):
        full = record(1, 9, time=int(time.time()) + 9999)
        found = checked_copy.problems_of(Archive([full]), archive.counted(record(0, 4), Archive([full]), ""))
        self.assertIn("registry-1.db has 9, and is kept", found[0])
        self.assertIn("1 backups have a time in the future", found[1])


if __name__ == "__main__":
    unittest.main()
