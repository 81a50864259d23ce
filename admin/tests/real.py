"""Runs avroreg-admin as a real process, with a release of a test in place of the Debian package.

    AVROREG_ADMIN_LOCAL=FOLDER [HOLD_AT=N] [KILL_AT=N] python3 tests/real.py COMMAND..

The installed release is the text of FOLDER/release; the package of the release X is the file FOLDER/X.deb. With HOLD_AT, the command waits
before the N-th step of its job until FOLDER/held is removed, and checks that a hangup doesn't reach a program of a step that ignores it.
With KILL_AT, it ends before its N-th effect, by its count in FOLDER/effects.
"""

import os
import subprocess
import sys
import time
from pathlib import Path

sys.path.insert(0, str(Path(__file__).resolve().parent.parent))

from avroreg_admin import debian, job, main, releases, upgrade  # noqa: E402

ROOT = Path(os.environ["AVROREG_ADMIN_LOCAL"])
HELD, RELEASE = ROOT / "held", ROOT / "release"


class Release(releases.Package):
    """What an upgrade replaces: a file with the release's name. Each release has its program, FOLDER/X.program."""

    def installed(self) -> str:
        return RELEASE.read_text()

    def is_installed(self, version: str) -> bool:
        return self.installed() == version

    def install(self, file: str) -> None:
        subprocess.run(["cp", "--", file, RELEASE], check=True)

    def program_of(self, file: str, folder: str) -> str:
        return str(ROOT / f"{Path(file).read_text()}.program")


def read(file: Path) -> debian.Package:
    return debian.Package(file.absolute(), file.read_text(), "not known")


def hold(step: job.Step, number: int, count: int, opened: job.Job, take=job._take) -> str:
    """Waits before the chosen step; then a program that gets a hangup has to end as the step says."""
    if number == int(os.environ.get("HOLD_AT", "0")):
        HELD.touch()
        while HELD.exists():
            time.sleep(0.01)
        status = subprocess.run(["sh", "-c", "kill -HUP $$"]).returncode
        if (status == 0) != step.ignores_hangup:
            raise SystemExit(f"a hangup ended a program of the step {step.name} with {status}")
    return take(step, number, count, opened)


def go_on(_program: str, words: list[str]) -> None:
    """The new release's own command goes on: a new process of this script. It waits before the step HOLD_NEW_AT."""
    os.environ["HOLD_AT"] = os.environ.get("HOLD_NEW_AT", "0")
    EXECUTE(sys.executable, [sys.executable, __file__, *words[1:]])


EXECUTE = os.execv


def install() -> None:
    releases.Package = Release
    debian.read, debian.installed, debian.keep = read, Release().installed, lambda package: package.file
    debian.find = lambda version: ROOT / f"{version}.deb"
    job._take, upgrade.os.execv = hold, go_on
    if chosen := int(os.environ.get("KILL_AT", "0")):
        from kills import Counter
        Counter(ROOT / "effects", chosen).install()


if __name__ == "__main__":
    install()
    sys.exit(main.main())
