"""The findings of `doctor`: each test of a fact, what it names, and that the incident page has it."""

import json
import re
import unittest
from dataclasses import replace
from pathlib import Path

from support import RegistryCase

from avroreg_admin import arguments, facts, findings, pauses, places, seen, server, status
from avroreg_admin.job import Job

PAGE = Path(__file__).resolve().parents[2] / "docs/incident.md"
INODES = {"database": {"inode": 1, "size": 1 << 20, "links": 1}, "log": {"inode": 2, "size": 1 << 20}, "header": "00", "mark": {"inode": 1, "launch": "a"}}
NOW = 1_800_000_000.0
BACKUP = {"file": "b.db", "time": NOW - 3600, "schemas": 5, "expected": 5, "subjects": 1, "versions": 5, "bytes": 1000, "audit": "holds"}


def healthy(**changes) -> facts.Facts:
    return replace(facts.Facts("default", folder="/f", now=NOW, pid=7, probe=facts.Probe(200, None, 0.01, "BACKWARD"), looked=INODES,
                               recent=seen.Recent(launch="a", log=2), backups={"records": [BACKUP]}, mode="READWRITE"), **changes)


def stopped(**changes) -> facts.Facts:
    return healthy(**({"pid": None, "probe": facts.Probe()} | changes))


CASES = [  # the facts, the id, a text of the finding or of its commands
    (healthy(job=Job("restore", "1", "ops", NOW, step="stop")), "unfinished", "avroreg-admin continue"),
    (stopped(refusal={"id": "file-missing", "text": "F is missing", "next": ["avroreg-admin restore"]}), "file-missing", "avroreg-admin restore"),
    (stopped(port_holder="nginx (pid 9)"), "port-taken", "nginx (pid 9) listens on port 8081"),
    (stopped(), "stopped", "systemctl start avroreg"),
    (stopped(journal=["avroreg: F has layout 1, run migrate"]), "layout", "avroreg-admin package-after"),
    (stopped(journal=["avroreg: F has layout 3, newer than this program"]), "layout", "install the release"),
    (stopped(journal=["avroreg: F is not a registry"]), "not-a-registry", "avroreg-admin restore"),
    (stopped(journal=["avroreg: cannot open F"]), "cannot-open", "avroreg-admin repair"),
    (stopped(journal=["avroreg: out of memory"]), "memory", "MemoryMax"),
    (stopped(journal=["error: invalid value"]), "arguments", "setting"),
    (stopped(settings_fault="/etc/default/avroreg: AVROREG_PORT=none isn't a number"), "arguments", "AVROREG_PORT=none"),
    (healthy(looked=INODES | {"database": None}), "removed-while-running", "registry.db was removed"),
    (healthy(looked=INODES | {"database": {"inode": 9, "size": 1, "links": 1}}), "removed-while-running", "avroreg-admin rescue"),
    (healthy(looked=INODES | {"log": None}), "removed-while-running", "registry.db-wal was removed"),
    (healthy(looked=INODES | {"log": {"inode": 9, "size": 1}}), "removed-while-running", "avroreg-admin rescue"),
    (healthy(looked=INODES | {"header": None}), "log-damaged", "avroreg-admin rescue"),
    (healthy(probe=facts.Probe(500, 50001)), "store-failed", "systemctl restart avroreg"),
    (healthy(free=(64 << 20) - 1), "disk-full", "avroreg-admin move DIR"),
    (healthy(free=(64 << 20) - 1, same_disk=True, after_backup="rsync"), "disk-full", "avroreg-admin backups prune --keep 3"),
    (healthy(free=(1 << 30) - 1), "disk-low", "Everything works"),
    (healthy(free=5 << 20, floor=1 << 20, same_disk=True, after_backup="rsync"), "disk-low", "avroreg-admin backups prune"),
    (healthy(backups={"records": [BACKUP | {"schemas": 4}]}), "schemas-lost", "avroreg-admin restore --fullest"),
    (healthy(backups={"records": []}), "backup-old", "there is no good backup"),
    (healthy(backups={"records": [BACKUP | {"time": NOW - 36 * 3600 - 1}]}), "backup-old", "avroreg-admin backup"),
    (healthy(backups={"records": [BACKUP, BACKUP | {"file": "c.db", "audit": "fails"}]}), "evidence", "c.db"),
    (healthy(backup_failed="no space"), "backup-failed", "no space"),
    (healthy(probe=facts.Probe(0, None, 20.0)), "blocked", "doesn't respond within 20 s"),
    (healthy(probe=facts.Probe(0, None, 20.0), suspect="ci from ::1: POST /subjects/S/versions"), "blocked", "ci from ::1"),
    (healthy(probe=facts.Probe(200, None, 2.5)), "slow", "2.5 s"),
    (healthy(usage=server.Usage(71, 100)), "memory", "MemoryMax"),
    (healthy(usage=server.Usage(1, 100, 2)), "memory", "killed it 2 times"),
    (healthy(restarts=3), "restarts", "journalctl"),
    (healthy(probe=facts.Probe(503, 50303)), "node-stopped", "avroreg-cluster"),
    (healthy(certificate_end=NOW + 20 * 86400), "certificate", "renew"),
    (healthy(program_changed=True), "program-changed", "install"),
    (healthy(pauses=[pauses.Pause("ops", "a move", NOW)]), "writes-paused", "avroreg-admin resume"),
    (healthy(mode="READONLY"), "read-only", "42205"),
    (healthy(same_disk=True), "same-disk", "another machine"),
    (healthy(after_backup="rsync", offsite_failed="no route to host (status 7)"), "offsite-failed", "no route to host"),
    (healthy(backups={"records": [BACKUP | {"time": NOW - 9001}]}, backup_interval=6000), "backup-old", "avroreg-admin backup"),
]


class FindingsCase(unittest.TestCase):
    def test_each_problem_is_named_alone(self):
        for facts_, name, text in CASES:
            found = findings.of(facts_)
            self.assertEqual([finding.id for finding in found], [name], facts_)
            shown = " ".join((found[0].what, found[0].works, *found[0].next, *found[0].details))
            self.assertIn(text, shown)

    def test_a_healthy_registry_has_none(self):
        for facts_ in (healthy(), healthy(free=1 << 30), healthy(usage=server.Usage(70, 100)), healthy(certificate_end=NOW + 22 * 86400),
                       healthy(recent=seen.Recent(launch="b", log=9)), healthy(looked=None), healthy(backups=None),
                       healthy(same_disk=True, after_backup="rsync"), healthy(probe=facts.Probe(200, None, 1.9)), healthy(restarts=2)):
            self.assertEqual(findings.of(facts_), [], facts_)

    def test_each_id_has_a_case_and_a_place_on_the_page(self):
        cased = {name for _, name, _ in CASES} | set(findings.GUARD_IDS)
        self.assertEqual(cased, set(findings.IDS))
        page = PAGE.read_text(encoding="utf-8")
        missing = [name for name in findings.IDS if f"`{name}`" not in page]
        self.assertEqual(missing, [], "the incident page hasn't these ids")

    def test_the_guard_has_no_other_ids(self):
        source = (Path(findings.__file__).parent / "guard.py").read_text(encoding="utf-8")
        self.assertEqual(set(re.findall(r'Refusal\("([a-z-]+)"', source)), set(findings.GUARD_IDS))

    def test_each_next_command_exists(self):
        page = PAGE.read_text(encoding="utf-8")
        named = {match for facts_, _, _ in CASES for finding in findings.of(facts_) for line in finding.next for match in re.findall(r"avroreg-admin ([a-z-]+)", line)}
        for name in sorted(named | set(re.findall(r"avroreg-admin ([a-z-]+)", page))):
            self.assertIn(name, {command.name for command in arguments.SUBCOMMANDS if arguments.is_present(command)})

    def test_a_command_names_its_registry(self):
        self.assertEqual(healthy(name="orders").command("backup"), "avroreg-admin backup --registry orders")

    def test_the_page_is_short(self):
        self.assertLessEqual(len(PAGE.read_text(encoding="utf-8").split()), 1100)


class GatherCase(RegistryCase):
    def test_a_stopped_registry_is_examined_as_by_the_guard(self):
        place = places.Local("default", self.root)
        self.mark.unlink()
        self.assertEqual(findings.of(facts.gather(place))[0].id, "disk-not-mounted")
        self.assertIn(("default", "down"), status.rows_of(place, facts.gather(place)))

    def test_wrong_settings_are_a_finding(self):
        place = places.Local("default", self.root)
        place.settings_file.parent.mkdir(parents=True)
        place.settings_file.write_text("AVROREG_PORT=none\n")
        found = findings.of(facts.gather(place))
        self.assertEqual(found[0].id, "arguments")
        self.assertIn("AVROREG_PORT=none", found[0].what)
        self.assertIn(("default", "down"), status.rows_of(place, facts.gather(place)))

    def test_the_last_request_without_a_response_is_named(self):
        place = places.Local("default", self.root)
        self.assertEqual(facts.suspect_of(place), "")
        place.access_log.parent.mkdir(parents=True)
        entries = [{"time": "t1", "user": "a", "client": "1.2.3.4", "method": "POST", "path": "/subjects/S/versions", "status": 504},
                   {"time": "t2", "user": "b", "client": "1.2.3.5", "method": "GET", "path": "/subjects", "status": 504},
                   {"time": "t3", "user": "b", "client": "1.2.3.5", "method": "POST", "path": "/subjects/T", "status": 200}]
        place.access_log.write_text("".join(json.dumps(entry) + "\n" for entry in entries) + "half a li")
        self.assertEqual(facts.suspect_of(place), "t1 a from 1.2.3.4: POST /subjects/S/versions")

    def test_a_changed_program_is_noticed(self):
        place = places.Local("default", self.root)
        place.program = str(self.root / "program")
        Path(place.program).write_text("a")
        record = self.root / "usr/share/avroreg/program"
        record.parent.mkdir(parents=True)
        record.write_text(f"# avroreg 1\nca978112ca1bbdcafac231b39a23dc4da786eff8147c4e72b9807785afee48bb  {place.program}\n")
        self.assertFalse(facts.is_program_changed(place))
        Path(place.program).write_text("b")
        self.assertTrue(facts.is_program_changed(place))


if __name__ == "__main__":
    unittest.main()
