#!/usr/bin/env python3
"""Kills a command before and after each of its effects, then continues or undoes it, and checks what must hold.

    AVROREG=PROGRAM tests/kills.py [COMMAND]..      restore, restore-served, lost-ids and undo; default: all of them
        --every N, --from N, --to N     only each N-th effect, only these
        --after         also kill after each effect, not only before it
        --first         end at the first fault

An effect is a rename, a link, a removal, a new folder, a sync or a started process. The command runs in a fork, which ends with
os._exit at the chosen effect. After each kill:

    1   the guard refuses, or the registry is whole: it is the old one or the restored one
    2   `continue` gives the end state of a run that wasn't killed
    3   `undo`, before the restored registry has responded, gives back the old bytes
    4   each version of the old registry is there, or is named in difference.txt
    5   no id has two schemas in the old file, the backup and the result
    6   the old files are kept
"""

import argparse
import json
import os
import subprocess
import sys
import tempfile
from pathlib import Path

from local import MEMORY, Registry, forked, state_of

from avroreg_admin import guard, replacement

EFFECTS = ("rename", "replace", "link", "unlink", "remove", "mkdir", "rmdir", "fsync", "sync")
KILLED = 9
COMMANDS = {"restore": ["restore", "--newest", "--yes"], "restore-served": ["restore", "--newest", "--yes"], "lost-ids": ["lost-ids", "--count", "3", "--yes"]}


class Counter:
    """Counts the effects of a fork in a file, and ends it at the chosen one."""

    def __init__(self, file: Path, chosen: int = 0, is_after: bool = False):
        self.file, self.chosen, self.is_after, self.count = file, chosen, is_after, 0

    def wrap(self, name: str, function):
        def effect(*arguments, **more):
            self.count += 1
            self.file.write_text(str(self.count))
            if self.count == self.chosen and not self.is_after:
                os._exit(KILLED)
            result = function(*arguments, **more)
            if self.count == self.chosen:
                os._exit(KILLED)
            return result
        return effect

    def install(self) -> None:
        for name in EFFECTS:
            setattr(os, name, self.wrap(name, getattr(os, name)))
        subprocess.Popen.__init__ = self.wrap("process", subprocess.Popen.__init__)


class Trial(Registry):
    """The cases of a command. Each one starts from the same registry."""

    def __init__(self, root: Path, command: str):
        super().__init__(root)
        self.command, self.wrong, self.after = command, 0, None
        self.counted = root / "effects"

    def act_as_systemd(self) -> None:
        """systemd knows a server that a killed command started, and runs `started` after it."""
        place, running = self.place, self.servers()
        if running and place.process() is None:
            place.pid_file.parent.mkdir(parents=True, exist_ok=True)
            place.pid_file.write_text(str(running[0]))
        if running:
            place._admin("started", MAINPID=str(running[0]))

    # What must hold

    def report(self, where: str, fault: str) -> None:
        if fault:
            self.wrong += 1
            print(f"WRONG: {self.command}, {where}: {fault}"[:600], flush=True)

    def fault_of_kill(self) -> str:
        """1: nothing starts, or what would start is whole."""
        refusal, _ = guard.examine("default", str(self.root))
        if refusal is not None:
            return ""
        now = state_of(self.place.database)
        is_right = now in (self.old, self.after) if self.after else now["schemas"][:len(self.backup["schemas"])] == self.backup["schemas"]
        return "" if is_right else f"1: the guard lets a start through, and the registry has {now}"

    def fault_of_ids(self, result: dict) -> str:
        """5: over all three, each id has one schema, and each schema one id."""
        pairs = {tuple(row) for state in (self.old, self.backup, result) for row in state["schemas"]}
        is_right = len({number for number, _ in pairs}) == len(pairs) == len({text for _, text in pairs})
        return "" if is_right else f"5: an id has two schemas, or a schema two ids: {sorted(pairs)}"

    def fault_of_losses(self, result: dict) -> str:
        """4: what the old registry had and the result hasn't is in difference.txt."""
        texts = "".join(file.read_text() for file in self.place.state.glob("*/difference.txt"))
        missing = [row for row in self.old["versions"] if row not in result["versions"] and f"version {row[1]} of {row[0]}" not in texts]
        return f"4: lost, and not named: {missing}" if missing else ""

    def fault_of_kept(self) -> str:
        """6: the old file and its log are in the job's folder. A server that was stopped may have added to its log."""
        kept = [file for file in self.place.jobs.glob("*/old/registry.db")]
        if len(kept) != 1:
            return f"6: the old files are {kept}"
        if self.is_served:
            return "" if state_of(kept[0]) == self.old else "6: the old file was changed"
        same = all((kept[0].parent / name).read_bytes() == data for name, data in self.before.items())
        return "" if same else "6: the old files were changed"

    def fault_of_end(self) -> str:
        """2, 4, 5 and 6, after a run that was finished."""
        place = self.place
        left = [str(file) for file in (place.job_file, place.paused_file) if file.exists()]
        if left or place.process() is None or place.ask("GET", "/config")[0] != 200:
            return f"2: left: {left}; the server runs: {place.process() is not None}"
        result = state_of(place.database)
        if self.after is not None and result != self.after:
            return f"2: the end state differs: {result}"
        records = [json.loads(file.read_text()) for file in place.backups.glob("registry-*.json")]
        if sum(bool(record["job"]) for record in records) != 1:
            return f"2: {len(records)} backups, of which {sum(bool(record['job']) for record in records)} are the job's"
        return self.fault_of_ids(result) or self.fault_of_losses(result) or self.fault_of_kept()

    def fault_of_undone(self) -> str:
        """3: the old bytes, or the old contents if the old registry was started again."""
        place = self.place
        if place.job_file.exists() or place.paused_file.exists() or list(place.jobs.glob("*/*")):
            return f"3: left: {list(place.jobs.glob('*/*'))}"
        if self.is_served:
            same = place.process() is not None and state_of(place.database) == self.old
        else:
            same = self.files == self.before
        refusal, _ = guard.examine("default", str(self.root))
        return "" if same and refusal is None else f"3: the old registry isn't back, or can't start: {refusal and refusal.text}"

    # The cases

    def finish(self, ending: str, where: str) -> None:
        """Continues or undoes the killed command."""
        if not self.place.job_file.exists():
            return self.begin_again(where)
        status, printed = forked([ending, "--yes"])
        if ending == "undo" and status == 1 and "has served the new file" in printed:
            return self.finish("continue", where)
        if status != 0:
            return self.report(where, f"{ending} ended with {status}: {printed}")
        self.report(f"{where}, {ending}", self.fault_of_undone() if ending == "undo" else self.fault_of_end())

    def begin_again(self, where: str) -> None:
        """Without a job file, the command did nothing yet, or everything."""
        if list(self.place.jobs.glob("*/old/registry.db")):
            return self.report(where, self.fault_of_end())
        self.report(where, self.fault_of_untouched())
        status, printed = forked(COMMANDS[self.command])
        self.report(f"{where}, again", f"status {status}: {printed}" if status else self.fault_of_end())

    def fault_of_untouched(self) -> str:
        if self.is_served:
            return "" if self.place.process() is not None and state_of(self.place.database) == self.old else "3: the registry changed"
        return "" if self.files == self.before else "3: the old bytes changed"

    def run_all(self, options) -> None:
        self.reset(self.command != "restore")
        status, printed = forked(COMMANDS[self.command], Counter(self.counted).install)
        if status != 0:
            return self.report("unbroken", f"status {status}: {printed}")
        count, self.after = int(self.counted.read_text()), state_of(self.place.database)
        self.report("unbroken", self.fault_of_end())
        print(f"{self.command}: {count} effects", flush=True)
        for number in range(options.first_effect, min(count, options.last) + 1, options.every):
            for is_after in (False, True) if options.after else (False,):
                for ending in ("continue", "undo"):
                    self.case(number, is_after, ending)
                    if options.first and self.wrong:
                        return

    def case(self, number: int, is_after: bool, ending: str) -> None:
        where = f"killed {'after' if is_after else 'before'} effect {number}"
        self.reset(self.command != "restore")
        status, printed = forked(COMMANDS[self.command], Counter(self.counted, number, is_after).install)
        if status != KILLED:
            return self.report(where, f"the command wasn't killed, status {status}: {printed}")
        self.act_as_systemd()
        if not self.servers():
            self.report(where, self.fault_of_kill())
        self.finish(ending, where)


class UndoTrial(Trial):
    """Kills `undo` of a restore that stopped with its file in place: once before the start, once with a log that a server left."""

    has_log = False

    def reset(self, is_served: bool = False) -> None:
        super().reset(is_served)
        status, printed = forked(COMMANDS["restore"], self.fail_to_start)
        if status != 3:
            raise SystemExit(f"the restore ended with {status}: {printed}")

    def fail_to_start(self) -> None:
        def start(self_):
            if self.has_log:
                self.place.log.write_bytes(b"a log without frames")
            raise OSError(5, "Input/output error")
        replacement.Replacement.start = start

    def run_all(self, options) -> None:
        for self.has_log in (False, True):
            self.reset()
            status, printed = forked(["undo", "--yes"], Counter(self.counted).install)
            self.report("unbroken", f"status {status}: {printed}" if status else self.fault_of_undone())
            count = int(self.counted.read_text())
            print(f"undo: {count} effects", flush=True)
            for number in range(options.first_effect, min(count, options.last) + 1, options.every):
                self.case(number, False, "undo")
                if options.first and self.wrong:
                    return

    def case(self, number: int, is_after: bool, ending: str) -> None:
        where = f"killed before effect {number}"
        self.reset()
        status, printed = forked(["undo", "--yes"], Counter(self.counted, number).install)
        if status != KILLED:
            return self.report(where, f"undo wasn't killed, status {status}: {printed}")
        self.report(where, self.fault_of_kill())
        if self.place.job_file.exists():
            status, printed = forked(["undo", "--yes"])
            if status != 0:
                return self.report(where, f"undo again ended with {status}: {printed}")
        self.report(f"{where}, again", self.fault_of_undone())


def run_all() -> int:
    parser = argparse.ArgumentParser(description=__doc__, formatter_class=argparse.RawDescriptionHelpFormatter)
    parser.add_argument("commands", nargs="*", metavar="COMMAND")
    parser.add_argument("--every", type=int, default=1)
    parser.add_argument("--from", dest="first_effect", type=int, default=1)
    parser.add_argument("--to", dest="last", type=int, default=1 << 30)
    parser.add_argument("--after", action="store_true")
    parser.add_argument("--first", action="store_true")
    options = parser.parse_args()
    wrong = 0
    for command in options.commands or [*COMMANDS, "undo"]:
        with tempfile.TemporaryDirectory(dir=MEMORY, prefix="avroreg-kills-") as folder:
            trial = (UndoTrial if command == "undo" else Trial)(Path(folder), command)
            try:
                trial.run_all(options)
            finally:
                trial.kill_servers()
            wrong += trial.wrong
    print(f"kills: {wrong} wrong", flush=True)
    return 1 if wrong else 0


if __name__ == "__main__":
    sys.exit(run_all())
