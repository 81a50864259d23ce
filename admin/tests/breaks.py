#!/usr/bin/env python3
"""Breaks the modules, one line each, and sees that the named test fails.

    AVROREG=PROGRAM tests/breaks.py [NAME]..      default: all of them

A break is made in a copy of `admin`. The test has to fail, and to print the text that the break names.
"""

import os
import re
import shutil
import subprocess
import sys
import tempfile
from dataclasses import dataclass
from pathlib import Path

HERE = Path(__file__).resolve().parent
TEST_SECONDS = 900
COPIES = "    copy_file(source, target)\n    copy_file(log_of(source), log_of(target))\n"
CERTAIN = "copies"


@dataclass(frozen=True)
class Break:
    """A text of a module, another one in its place, the test that has to fail, and what it prints then."""

    module: str
    right: str
    wrong: str
    test: str
    report: str = ""


def of_copy(right: str, wrong: str, report: str, module: str = "hot_copy") -> Break:
    return Break(module, right, wrong, CERTAIN, f"WRONG: {report}")


BREAKS = {
    # the hot copy
    "log-first": of_copy(COPIES, "".join(reversed(COPIES.splitlines(keepends=True))), "a checkpoint between the files"),
    "header-not-compared": of_copy("if valid_header(log_of(source)) == before == valid_header(log_of(target)):", "if True:", "a new log between the files"),
    "header-not-read-again": of_copy("valid_header(log_of(source)) == before == valid_header(log_of(target))", "before == valid_header(log_of(target))",
                                     "a new log while the log is copied"),
    "header-not-validated": of_copy("return header if is_valid(header) else None", "return header", "a damaged header", "wal"),
    "checksum-not-tested": of_copy('return struct.pack(">2I", *add_checksum((0, 0), header[:24], is_big_endian(header))) == header[24:]', "return True",
                                   "a damaged header", "wal"),
    "no-header-accepted": of_copy("    if before is None:\n        return False\n", "", "an empty log, before and after"),
    "tries-not-capped": of_copy("range(1, tries + 1)", "iter(int, 1)", "a log that is never valid"),
    "copy-left": of_copy("    remove(target)\n    return False\n", "    return False\n", "a new log between the files: a rejected copy is left"),
    # the log
    "chain-not-followed": Break("wal", 'holds = has_salts and struct.pack(">2I", *state) == frame[16:24]', "holds = has_salts", "test_wal"),
    "torn-end-refused": Break("wal", "if later > 1 else", "if later > 0 else", "test_wal"),
    "other-salts-counted": Break("wal", "later += not holds and has_salts and is_commit", "later += not holds and is_commit", "test_wal"),
    "short-log-refused": Break("wal", "        if os.fstat(descriptor).st_size < FIRST_FRAME_BYTES:\n            return \"\"\n", "", "test_wal"),
    "log-link-followed": Break("wal", "os.O_RDONLY | os.O_NOFOLLOW", "os.O_RDONLY", "test_wal"),
    # lost ids
    "set-clock-ignored": Break("nginx_log", "is_newer or found.set_back is not None or", "is_newer or", "test_nginx_log"),
    "only-newer-lines": Break("nginx_log", "is_newer = is_newer or found.set_back is not None or entry", "is_newer = entry", "test_nginx_log"),
    "unreadable-ignored": Break("nginx_log", "return self.registrations + self.unreadable", "return self.registrations", "test_nginx_log"),
    "failures-ignored": Break("nginx_log", "self.status == 200 or self.status >= 499", "self.status == 200", "test_nginx_log"),
    "log-begins-later": Break("reserved_ids", "log.first is not None and log.first <= since", "log.first is not None", "test_reserved_ids"),
    "no-margin": Break("reserved_ids", "yield sources.seen + MARGIN", "yield sources.seen", "test_reserved_ids"),
    "old-file-trusted": Break("reserved_ids", "if not sources.old.is_whole or", "if", "test_reserved_ids"),
    "user-s-subject-taken": Break("reserved_ids", "if name not in taken)", ")", "test_reserved_ids"),
    "ids-not-compared": Break("reserved_ids", 'if status != 200 or body.get("id") != expected:', "if status != 200:", "test_reserved_ids"),
    "ids-not-reserved": Break("drafting", "newly = reserved_ids.reserve(avroreg, draft, planned, refused)", "newly = set()", "test_restore -k first_registration"),
    "draft-not-checked": Break("drafting", "        newly = reserved_ids.reserve(avroreg, draft, planned, refused)\n        if not newly:",
                               "        newly = reserved_ids.reserve(avroreg, draft, planned, refused) and set()\n        if not newly:",
                               "test_restore -k refuses_gets_a_placeholder"),
    # the archive
    "order-by-name": Break("archive", "key=lambda record: (record.number, record.file)", "key=lambda record: record.file", "test_archive"),
    "order-by-time": Break("archive", "key=lambda record: (record.number, record.file)", "key=lambda record: record.time", "test_backup -k wrong_clock"),
    "fullest-not-kept": Break("archive", "(*self.good[-max(keep, 1):], self.fullest)", "self.good[-max(keep, 1):]", "test_archive"),
    "newest-not-kept": Break("archive", "max(keep, 1)", "(keep or None)", "test_archive"),
    "pins-ignored": Break("archive", "if record.number not in stay and not record.pinned]", "if record.number not in stay]", "test_archive"),
    "damaged-record-trusted": Break("archive", "return record if is_right and record.number != 0 else None", "return record", "test_archive"),
    "future-not-reported": Break("archive", "if record.time > now + CLOCK_SLACK_SECONDS]", "if False]", "test_backup -k wrong_clock"),
    "fewer-not-reported": Break("checked_copy", "if record.schemas < record.expected:", "if False:", "test_backup -k fullest"),
    "fewer-never-accepted": Break("archive", "if accepted or last is None:", "if last is None:", "test_backup -k fullest"),
    "audit-ignored": Break("checked_copy", 'if found["status"] != 0 or found["text"] != EVIDENCE_HOLDS:', "if False:", "test_backup -k failed_audit"),
    "audit-s-text-ignored": Break("checked_copy", 'if found["status"] != 0 or found["text"] != EVIDENCE_HOLDS:', 'if found["status"] != 0:', "test_backup -k failed_audit"),
    "named-before-audit": Break("checked_copy", "            copied = str(made / name)\n            copy(database, copied, process)\n",
                                "            copied = str(made / name)\n            copy(database, copied, process)\n            shutil.copyfile(copied, Path(folder, name))\n",
                                "test_backup -k killed_backup"),
    "left-not-removed": Break("checked_copy", "shutil.rmtree(left) if left.is_dir() else left.unlink(missing_ok=True)", "pass", "test_archive"),
    "no-lock-of-the-archive": Break("archive", "fcntl.flock(descriptor, fcntl.LOCK_EX | fcntl.LOCK_NB)", "pass", "test_archive"),
    "space-not-checked": Break("checked_copy", "    if free < needed:", "    if False:", "test_backup -k too_full"),
    "bytes-not-compared": Break("checked_copy", 'fault = "" if archive.digest_of(copied) == record.sha256 else', 'fault = "" if True else', "test_backup -k list_and_its_checks"),
    "shared-folder-accepted": Break("backup", "or found.st_mode & 0o022 and not found.st_mode & stat.S_ISVTX:", ":", "test_backup -k to_a_file"),
    "hard-link-accepted": Break("backup", "or found.st_nlink != 1:", ":", "test_backup -k planted_link"),
    "drill-s-server-left": Break("drill", "\"setpriv\", \"--pdeathsig\", \"KILL\", ", "", "test_backup -k killed_drill"),
    "drill-without-audit": Break("drill", "if fault := checked_copy.audited(avroreg, served):", "if fault := '':", "test_backup -k drill"),
    # the registry's user
    "root-does-the-work": Break("hands", "if os.geteuid() == self.uid:", "if True:", "test_owner"),
    "links-of-others-read": Break("incoming", "            refuse_foreign(source)\n", "", "test_owner"),
    # the guard
    "guard-without-job": Break("guard", "(check_job, ", "(", "test_guard"),
    "guard-without-registry": Break("guard", " check_registry, ", " ", "test_guard"),
    "guard-without-mark": Break("guard", " check_mark, ", " ", "test_guard"),
    "guard-without-file": Break("guard", " check_file, ", " ", "test_guard"),
    "guard-without-inode": Break("guard", " check_inode, ", " ", "test_guard"),
    "guard-without-access": Break("guard", " check_access, ", " ", "test_guard"),
    "guard-without-log": Break("guard", " check_log, ", " ", "test_guard"),
    "guard-without-chain": Break("guard", " check_chain, ", " ", "test_guard"),
    "guard-without-space": Break("guard", ", check_space)", ")", "test_guard"),
    # move
    "move-without-comparing": Break("move", "        if not filecmp.cmp(source, copy, shallow=False):", "        os.truncate(copy, 0)\n        if False:", "test_move -k both_halves"),
    "move-without-mount": Break("move", "os.path.ismount(self.place.folder):\n            return False", "os.path.ismount(self.place.folder):\n            return self.aside.is_dir()",
                                "test_move -k both_halves"),
    "move-undone-while-mounted": Break("move", "        if self.is_mounted():\n            raise", "        if False:\n            raise", "test_move -k before_and_after"),
    "move-undone-after-serving": Break("move", 'if self.facts.get("was_served"):', "if False:", "test_move -k is_served"),
    "move-known-by-sizes-only": Break("move", "return self.has_mark() or", "return", "test_move -k is_served"),
    "move-to-a-folder": Break("move", "if not os.path.ismount(disk) or os.path.islink(disk):", "if False:", "test_move -k can_not_be_used"),
    # copy-to
    "deletion-not-compared": Break("copy_to", """    lines += [f"version {number} of {subject} isn't deleted there" for subject, number in copy.to_delete(there)]\n""", "", "test_copy_to -k lost_deletion"),
    "deletions-not-sent": Break("copy_to", "for subject, number in deletions:", "for subject, number in deletions[1:]:", "test_copy_to -k first_copy"),
    "unused-ids-not-sent": Break("copy_to", "enumerate(sorted(texts.keys() - used), 1)", "()", "test_copy_to -k first_copy"),
    "another-registry-accepted": Break("copy_to", "            if found[\"id\"] != identifier:", "            if False:", "test_copy_to -k another_registry"),
    "opened-without-note": Break("copy_to", 'self.facts.get("is_opening", False) and', "", "test_copy_to -k switch_that_fails"),
    "switch-without-read-only": Break("copy_to", "        self.set_mode(CLOSED)\n", "", "test_copy_to -k the_switch"),
    "switch-that-no-restart-survives": Break("copy_to", "        self.place.hands(marking.allow, database=self.place.database, job=self.job.id)  # a restart meanwhile is let through\n", "",
                                             "test_copy_to -k switch_that_fails"),
    # copy-from
    "other-registry-stays-open": Break("copy_from", '        self.there.expect("PUT", "/mode", {"mode": CLOSED})\n', "", "test_copy_from -k the_switch"),
    "other-registry-stays-closed": Break("copy_from", '            self.there.expect("PUT", "/mode", {"mode": self.facts["mode"]})\n', "            pass\n", "test_copy_from -k killed_after"),
    "copy-not-opened": Break("copy_from", 'mode=CLOSED if self.facts["mode"] == CLOSED else OPEN', "mode=CLOSED", "test_copy_from -k the_switch"),
    "replaced-unasked": Break("copy_from", "if here and not context.options.replace:", "if False:", "test_copy_from -k only_on_demand"),
    "replaced-not-named": Break("copy_from", "if old and old.schemas else []", "if False else []", "test_copy_from -k only_on_demand"),
    "ids-not-used-up": Break("copying", "    if used_ids and not os.path.exists(database):", "    if False:", "test_copy_from -k begin_later"),
    "rehearsal-left": Break("copy_from", "    finally:\n        place.hands(copying.forget, folder=folder)", "    finally:\n        pass", "test_copy_from -k rehearsal"),
    # upgrade and rollback
    "hangup-reaches-programs": Break("job", "signal.signal(signal.SIGHUP, signal.SIG_IGN if is_ignored else self._note)", "signal.signal(signal.SIGHUP, self._note)",
                                     "test_upgrade -k rollback_goes_on"),
    "lost-terminal-ends-it": Break("output", "        print(text, file=stream, flush=True)\n    except OSError:", "        print(text, file=stream, flush=True)\n    except KeyError:",
                                   "test_upgrade -k restore_goes_on"),
    "nohup-not-kept": Break("job", "ignores or self.before[signal.SIGHUP] == signal.SIG_IGN", "ignores", "test_upgrade -k nohup"),
    "move-hears-a-hangup": Break("move", "undo=self.start_again, ignores_hangup=True)", "undo=self.start_again)", "test_move -k lost_terminal"),
    "layout-not-asked": Break("layouts", "if NEWER in seen[\"fault\"]:", "if False:", "test_upgrade -k lost_ids_keep"),
    "lost-schemas-not-listed": Break("drafting", "    if (noted := read_json(noted_file(folder))) is None:", "    if True:", "test_upgrade -k lost_ids_keep"),
    "any-backup-restored": Break("layouts", 'record["pinned"] == f"before {facts[\'from\']}" and', "", "test_upgrade -k without_a_backup"),
    "rollback-undone-after-serving": Break("rollback", "            one.refuse_served()\n", "            pass\n", "test_upgrade -k OtherLayoutCase.test_killed"),
    "upgrade-undone-after-serving": Break("upgrade", "        if self.running and self.is_up():\n            raise", "        if False:\n            raise", "test_upgrade -k has_served"),
    # read-only
    "own-modes-forgotten": Break("read_only", '            write_json(note_of(place), {"subjects": subjects})', "            pass", "test_acts -k mode_of_their_own"),
    "earlier-modes-forgotten": Break("read_only", "sorted({*noted(place), *writable})", "sorted(writable)", "test_acts -k mode_of_their_own"),
    # nginx
    "other-registry-served": Break("nginx", '        commands.insert(0, ["set", "--registry", place.name, "--registry-port", str(place.settings.port)])', "        pass", "test_nginx"),
    # restore
    "link-not-refused": Break("swap", "        if os.path.islink(part):", "        if False:", "test_restore -k link"),
    "lock-not-taken": Break("swap", "fcntl.lockf(files[-1], fcntl.LOCK_EX | fcntl.LOCK_NB, LOCK_BYTES, LOCK_START)", "pass", "test_restore -k another_avroreg"),
    "foreign-file-overwritten": Break("swap", "        if found := mixed(database, folder):", "        if found := []:", "test_restore -k another_program"),
    "foreign-file-overwritten-by-undo": Break("swap", "    elif found := mixed(database, folder):", "    elif found := []:", "test_restore -k another_program"),
    "hangup-after-the-stop": Break("replacement", "undo=self.start_old, ignores_hangup=True)", "undo=self.start_old)", "test_restore -k lost_terminal"),
    "undo-after-serving": Break("replacement", "undo=self.refuse_served, ", "", "test_restore -k undo_is_refused"),
    "fullest-not-asked": Break("restore", 'if fullest["schemas"] > newest["schemas"] and not options.newest:', "if False:", "test_restore -k another_has_more"),
    "cache-key-kept": Break("replacement", 'if self.state()["ready"]["conflict"]:\n            self.context.output.text', "if False:\n            self.context.output.text",
                            "test_restore -k cache_key"),
    "whole-without-log": Break("drafting", 'return (log is not None or not noted["log"] or is_closed) and', "return", "test_drafting"),
    "journal-left": Break("swap", 'SUFFIXES = ("", "-wal", "-journal")', 'SUFFIXES = ("", "-wal")', "test_restore -k journal"),
    "old-files-removed": Break("swap", 'os.rename(part, in_folder(folder, "old", part))', "os.unlink(part)", "kills restore --first --every 40"),
    "pause-stays": Break("replacement", '        if not self.facts["was_paused"]:\n            remove', "        if False:\n            remove", "test_restore -k stopped_registry"),
    "moved-by-names-only": Break("swap", 'found is not None and found.st_ino == ready["inode"]', 'found is not None and not os.path.lexists(in_folder(folder, "new", database))',
                                 "test_swap"),
    "draft-is-done-too-early": Break("swap", '"drafted": ready is not None', '"drafted": os.path.lexists(in_folder(folder, "new", database)) or ready is not None',
                                     "kills restore --first --from 80 --to 110"),
    "swap-is-done-too-early": Break("swap", '"swapped": moved and is_marked', '"swapped": moved', "kills restore --first --from 100 --to 130"),
    "backup-is-done-too-early": Break("replacement", "return self.difference_file.exists() and any(", "return self.difference_file.exists() or any(",
                                      "kills restore --first --from 130 --to 165"),
    # watch
    "pause-too-late": Break("watch", "(has_failed or now.free < now.floor)", "has_failed", "test_watch -k DecideCase"),
    "resume-too-early": Break("watch", "now.free >= 2 * now.floor", "now.free >= now.floor", "test_watch -k DecideCase"),
    "restart-for-ever": Break("watch", "and len(recent.restarts) < RESTARTS_AN_HOUR", "", "test_watch -k DecideCase"),
    "kill-with-removed-files": Break("watch", "now.pid is not None and now.is_in_place and", "now.pid is not None and", "test_watch -k DecideCase"),
    "restart-on-a-full-disk": Break("watch", "and (keeps_writes_out or now.free >= now.floor)", "", "test_disk -k without_nginx"),
    "no-restart": Break("watch", "                os.kill(found.pid, signal.SIGKILL)\n", "                pass\n", "test_disk -k full_at_once"),
    "no-pause": Break("watch", "        actions.append(PAUSE)", "        pass", "test_disk -k full_at_once"),
    "no-resume": Break("watch", "        actions.append(RESUME)", "        pass", "test_disk -k full_at_once"),
    "restarts-forgotten": Break("watch", "            found.recent.restarts.append(found.now)\n", "", "test_disk -k bad_disk"),
    "any-silence-is-a-check": Break("watch", "elapsed >= now.check_limit and now.processor - recent.silent_processor >= BUSY_PART * elapsed", "elapsed >= now.check_limit",
                                    "test_watch -k DecideCase"),
    "lock-ignored": Break("watch", "        with job.Lock(place, is_shared=True):\n            act", "        if True:\n            act", "test_acts -k has_the_lock"),
    "job-ignored": Break("watch", "and place.settings.acts and found.job is None:", "and place.settings.acts:", "test_acts -k unfinished"),
    "setting-ignored": Break("watch", "and place.settings.acts and found.job is None:", "and found.job is None:", "test_acts -k only_measures"),
    "woken-copy-trusted": Break("rescue", "    if is_older_than_wake(place, copied):", "    if False:", "test_acts -k may_lack_writes"),
    "wake-not-noted": Break("watch", 'seen.read(place.seen_file) | {"woken": time.time()}', "seen.read(place.seen_file)", "test_acts -k suspended_server_goes"),
    "damaged-header-saved": Break("seen", "header = wal.valid_header(log) if log_file else None", "header = open(log, 'rb').read(32) if log_file else None",
                                  "test_watch -k RememberCase"),
    "holes-end-the-search": Break("seen", "HOLES = 16", "HOLES = 1", "test_watch -k RememberCase"),
    "other-registry-s-ids": Break("watch", "        known = {}  # of an earlier registry", "        pass", "test_watch -k RememberCase"),
    # rescue and repair
    "not-suspended": Break("removed", "    os.kill(pid, signal.SIGSTOP)", "    pass", "test_doctor -k between_copy_and_stop"),
    "goes-on-before-the-stop": Break("removed", "with suspended(pid, stays=True):", "with suspended(pid):", "test_doctor -k between_copy_and_stop"),
    "stays-suspended": Break("removed", "        if not (is_done and stays):", "        if False:", "test_doctor -k after_an_error"),
    "log-not-copied": Break("removed", "        if opened.log is not None:", "        if False:", "test_doctor -k removed_files_are"),
    "no-copy-at-a-stop": Break("before_stop", "    if names:", "    if False:", "test_doctor -k stop_saves"),
    "rescued-copy-unused": Break("rescue", "avroreg, source, made)\n        subjects", "avroreg, database, made)\n        subjects", "test_doctor -k stop_saves"),
    "any-header": Break("repair", "if frame[8:16] != header[16:24] or struct.pack(\">2I\", *state) != frame[16:24]:", "if False:", "test_watch -k HeaderCase"),
    "later-damage-repaired": Break("repair", "    if fault := wal.fault_of(draft):", "    if fault := '':", "test_watch -k HeaderCase"),
    "damaged-log-not-kept": Break("repair", "    hot_copy.copy_file(log, os.path.join(kept, \"registry.db-wal\"))\n", "", "test_doctor -k repaired_from"),
    "linked-file-given-away": Break("repair", "or found.st_nlink != 1:", ":", "test_doctor -k no_linked_file"),
    "mark-not-renewed": Break("repair", "before | {\"inode\": found.st_ino, ", "before | {", "test_doctor -k second_hard_link"),
    # doctor
    "removed-not-noticed": Break("seen", 'noted.get("inode") not in (None, looked["database"]["inode"])', "False", "test_doctor -k replaced_file"),
    "removed-log-not-noticed": Break("seen", 'if looked["log"] is None or', "if", "test_doctor -k removed_log"),
    "guard-not-asked": Break("facts", "facts.refusal = allowed(place.hands, marking.examine, name=place.name, root=str(place.root))", "pass", "test_doctor -k missing_file"),
}


def command_of(test: str, folder: Path) -> list[str]:
    """The test's command, in the broken copy."""
    name, *options = test.split()
    tests = folder / "tests"
    if name == CERTAIN:
        return [sys.executable, str(tests / "copies/certain.py"), str(folder / "scratch")]
    if name == "kills":
        return [sys.executable, str(tests / "kills.py"), *options]
    where = tests if (tests / f"{name}.py").exists() else tests / "commands"
    return [sys.executable, "-m", "unittest", "discover", "-f", "-s", str(where), "-p", f"{name}*.py", *options]


def try_break(name: str, found: Break) -> bool:
    """Whether the test detects the break."""
    with tempfile.TemporaryDirectory(prefix="avroreg-break-") as scratch:
        os.chmod(scratch, 0o755)  # a test as root uses another user
        folder = Path(scratch, "admin")
        shutil.copytree(HERE.parent, folder, ignore=shutil.ignore_patterns("__pycache__"))
        (folder.parent / "examples").mkdir()
        shutil.copy(HERE.parents[1] / "examples/from-confluent.py", folder.parent / "examples")
        (folder / "scratch").mkdir()
        module = folder / f"avroreg_admin/{found.module}.py"
        text = module.read_text(encoding="utf-8")
        if text.count(found.right) != 1:
            print(f"{name}: {found.module}.py has the text {text.count(found.right)} times", flush=True)
            return False
        module.write_text(text.replace(found.right, found.wrong), encoding="utf-8")
        try:
            ran = subprocess.run(command_of(found.test, folder), capture_output=True, text=True, timeout=TEST_SECONDS)
        except subprocess.TimeoutExpired:
            print(f"{name}: {found.test} didn't end", flush=True)
            return False
        printed = ran.stdout + ran.stderr
        is_found = ran.returncode != 0 and found.report in printed and "Ran 0 tests" not in printed
        first = re.search(r"^(WRONG|FAIL|ERROR): .*", printed, re.M)
        print(f"{name}: " + (f"detected: {first[0][:150] if first else ''}" if is_found else f"NOT DETECTED, status {ran.returncode}: {printed[-300:]}"), flush=True)
        return is_found


def main() -> int:
    os.environ["AVROREG"] = os.path.realpath(os.environ["AVROREG"])
    os.environ["AVROREG_PATIENCE"] = "60"  # of test_disk
    names = sys.argv[1:] or list(BREAKS)
    missed = [name for name in names if not try_break(name, BREAKS[name])]
    print(f"breaks: {len(names)} tried, {len(missed)} not detected", flush=True)
    return 1 if missed else 0


if __name__ == "__main__":
    sys.exit(main())
