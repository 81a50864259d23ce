"""Two releases of a test, 1.0 and 2.0, each with a program: a script around avroreg. 2.0 has another layout, which 1.0 can't read.

The layout is the last byte of the field `user_version` in the file's header, which avroreg doesn't use.
"""

import os
import pty
import subprocess
import sys
import time
from pathlib import Path

REAL = Path(__file__).with_name("real.py")
LAYOUT = """#!/bin/sh
db= before=
for word; do [ "$before" = --db ] && db=$word; before=$word; done
layout=$(dd if="$db" bs=1 skip=63 count=1 2>/dev/null | od -An -tu1 | tr -d ' ')
"""
OLD = LAYOUT + """if [ "${layout:-0}" != 0 ]; then echo "avroreg: $db has layout $layout, newer than this program" >&2; exit 2; fi
exec PROGRAM "$@"
"""
NEW = LAYOUT + """if [ "$1" = migrate ]; then
  [ "$layout" = 0 ] || { echo "layout 3: nothing to do"; exit; }
  PROGRAM migrate --db "$db" >/dev/null || exit
  printf '\\003' | dd of="$db" bs=1 seek=63 conv=notrunc 2>/dev/null
  echo "layout 3: migrated"; exit
fi
if [ "$layout" = 0 ]; then echo "avroreg: $db has layout 2, run migrate" >&2; exit 2; fi
exec PROGRAM "$@"
"""
SAME = '#!/bin/sh\nexec PROGRAM "$@"\n'


def put(file: Path, text: str) -> None:
    file.write_text(text.replace("PROGRAM", os.environ["AVROREG_REAL"]))
    file.chmod(0o755)


def make(root: Path, new: str = SAME) -> None:
    """Puts both packages, and 1.0 as the installed release, into the folder of a place."""
    for name, text in (("1.0", OLD), ("2.0", new)):
        put(root / f"{name}.program", text)
        (root / f"{name}.deb").write_text(name)
    (root / "release").write_text("1.0")
    put(root / "avroreg", f'#!/bin/sh\nexec "{root}/$(cat {root}/release).program" "$@"\n')


def begin(root: Path, *words: str, **environment: str) -> subprocess.Popen:
    """A command as a real process in a session of its own, without a terminal."""
    return subprocess.Popen([sys.executable, REAL, *words], stdin=subprocess.DEVNULL, stdout=subprocess.PIPE, stderr=subprocess.STDOUT, text=True,
                            start_new_session=True, env=os.environ | {"AVROREG_ADMIN_LOCAL": str(root), "AVROREG": str(root / "avroreg")} | environment)


def run(root: Path, *words: str, **environment: str) -> tuple[int, str]:
    process = begin(root, *words, **environment)
    printed = process.communicate()[0]
    return process.returncode, printed


def lose_terminal(root: Path, step: int, *words: str) -> int:
    """Runs a command on a terminal, which is closed before this step of its job. Returns the command's status."""
    held = root / "held"
    pid, terminal = pty.fork()
    if pid == 0:
        os.environ |= {"AVROREG_ADMIN_LOCAL": str(root), "AVROREG": str(root / "avroreg"), "HOLD_AT": str(step)}
        os.execv(sys.executable, [sys.executable, REAL, *words])
    ended = 0
    while not held.exists() and not ended:
        ended, status = os.waitpid(pid, os.WNOHANG)
        time.sleep(0.01)
    os.close(terminal)
    if not ended:
        held.unlink()
        _, status = os.waitpid(pid, 0)
    return os.waitstatus_to_exitcode(status)
