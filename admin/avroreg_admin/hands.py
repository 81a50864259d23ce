"""Calls functions as the registry's user.

Root opens, renames and changes nothing in the registry's folder or among the backups: its user could
have planted a link there. A child with that user's uid does the work. Requests and results go through
pipes as JSON. A function that may be called so has the decorator `task`; its arguments and its result
are values of JSON.
"""

import errno
import importlib
import json
import os
import subprocess
import sys
from collections.abc import Callable

from .output import ERROR, Stop

TASKS: set[str] = set()
CLEAN_PATH = "/usr/local/bin:/usr/bin:/bin"


def task(function: Callable) -> Callable:
    """Allows Hands to call this function of a module."""
    TASKS.add(name_of(function))
    return function


def name_of(function: Callable) -> str:
    return f"{function.__module__.rpartition('.')[2]}.{function.__qualname__}"


def perform(name: str, arguments: dict) -> dict:
    """Calls a task. Returns its result or its error, as a value of JSON."""
    module, _, function = name.partition(".")
    try:
        found = getattr(importlib.import_module(f"{__package__}.{module}"), function)
        if name not in TASKS:
            raise PermissionError(errno.EPERM, f"{name} is no task")
        return {"result": found(**arguments)}
    except Stop as stop:
        return {"stop": [stop.status, stop.message, *stop.next_commands]}
    except ValueError as error:
        return {"stop": [ERROR, str(error)]}
    except OSError as error:
        return {"errno": error.errno or 0, "text": error.strerror or str(error), "file": os.fsdecode(error.filename or "")}


def result_of(reply: dict):
    """The result of a task, or its error."""
    if "stop" in reply:
        raise Stop(*reply["stop"])
    if "errno" in reply:
        raise OSError(reply["errno"], reply["text"], reply["file"] or None)
    return reply["result"]


class Hands:
    """Runs tasks as a user. If that user runs this program, the tasks run in this process."""

    def __init__(self, uid: int, gid: int, cwd: str = "/"):
        self.uid, self.gid, self.cwd = uid, gid, cwd
        self.child: subprocess.Popen | None = None

    def __call__(self, function: Callable, **arguments):
        """Calls a task: `hands(swap.move, database=.., old=..)`. Paths are passed as strings."""
        request = json.dumps({"task": name_of(function), "arguments": arguments}, default=str)
        if os.geteuid() == self.uid:
            asked = json.loads(request)
            return result_of(json.loads(json.dumps(perform(asked["task"], asked["arguments"]))))
        child = self.start()
        child.stdin.write(request + "\n")
        child.stdin.flush()
        line = child.stdout.readline()
        if not line:
            self.close()
            raise Stop(ERROR, f"the process of user {self.uid} ended during {name_of(function)}")
        return result_of(json.loads(line))

    def start(self) -> subprocess.Popen:
        if self.child is None:
            # a session of its own: it has no terminal, and the terminal's signals don't end it within a step
            self.child = subprocess.Popen(
                [sys.executable, "-I", "-c", f"import sys; sys.path.insert(0, {sys.path[0]!r}); from {__package__} import hands; hands.serve()"],
                stdin=subprocess.PIPE, stdout=subprocess.PIPE, text=True, encoding="utf-8", user=self.uid, group=self.gid, extra_groups=[], umask=0o077,
                cwd=self.cwd, env={"PATH": CLEAN_PATH, "LANG": "C.UTF-8"}, start_new_session=True)
        return self.child

    def close(self) -> None:
        if self.child is not None:
            self.child.stdin.close()
            self.child.wait()
            self.child.stdout.close()
            self.child = None


def serve() -> None:
    """The child: performs requests until its input ends."""
    for line in sys.stdin:
        request = json.loads(line)
        print(json.dumps(perform(request["task"], request["arguments"])), flush=True)
