"""What the tests of restores share: what has to be there after a good one, and after one that changed nothing."""

import errno
import os
from pathlib import Path

from support import CommandCase, state_of

RESTORE = ("restore", "--newest", "--yes")
SCHEMAS = {name: [str(number), '{"name":"%s","size":1,"type":"fixed"}' % name] for number, name in enumerate("abcdef", 1)}


class RestoreCase(CommandCase):
    def setUp(self):
        super().setUp()
        self.registry.reset()

    def backup_file(self) -> Path:
        return next(self.place.backups.glob("registry-*.db"))

    def unchanged(self) -> None:
        """No job is left, and the old bytes are there."""
        self.assertEqual(self.registry.files, self.registry.before)
        self.assertFalse(self.place.job_file.exists() or self.place.paused_file.exists())
        self.assertEqual([file for file in self.place.folder.iterdir() if file.name not in ("registry.db", "registry.db-wal", "registry.mark", "jobs", "other")], [])
        self.assertEqual([file for file in self.place.jobs.glob("*") if file.name != "init" and list(file.rglob("registry.db*"))], [])

    def restored(self) -> dict:
        """The registry is up, without a job, and has the backup's versions. Returns its contents."""
        self.assertFalse(self.place.job_file.exists() or self.place.paused_file.exists())
        result = state_of(self.place.database)
        self.assertEqual([row for row in result["versions"] if not row[0].startswith("avroreg-lost-ids")], self.registry.backup["versions"])
        self.assertEqual(self.place.ask("GET", "/subjects"), (200, ["s-a", "s-b", "s-c"]))
        return result

    def difference(self) -> str:
        return next(self.place.state.glob("*/difference.txt")).read_text()

    def kept(self) -> Path:
        return next(self.place.jobs.glob("*/old"))

    def no_id_is_given_twice(self) -> None:
        """Schemas of the old registry get their old ids or new ones, and a new schema gets no old id."""
        old = {number for number, _ in self.registry.old["schemas"]}
        for path in ("/mode/s-c", "/mode"):
            self.place.ask("PUT", path, {"mode": "READWRITE"})
        self.assertNotIn(str(self.registry.register("never_seen")), old)
        for name, (number, _) in SCHEMAS.items():
            got = str(self.registry.register(name))
            self.assertTrue(got == number or got not in old, f"{name} had id {number}, and gets {got}")

    def fail_at(self, number: int, is_lasting: bool = False, greatest: bool = False) -> str:
        """Restores with the rename of this number failing, and the ones after it."""
        def install():
            rename, count = os.rename, 0

            def failing(source, target, **more):
                nonlocal count
                if "registry." in os.fspath(target) and str(self.place.folder) in os.fspath(target):
                    count += 1
                    if count == number or is_lasting and count > number:
                        raise OSError(errno.EIO, "Input/output error", os.fspath(source))
                return rename(source, target, **more)
            os.rename = failing
        return self.run_command(*RESTORE, *(["--greatest-id", "6"] if greatest else []), status=3, prepare=install)
