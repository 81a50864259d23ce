"""Let other machines in, with TLS and users. The package avroreg-nginx does the work, and `avroreg-nginx --help` has every option.

  nginx on --name HOST --cert FILE --key FILE     serve this registry, and print the first user's password once
  nginx off | renew | show | forget-cache         keep others out; read a new certificate; print; empty the cache
  nginx set [--rate N] [--origin URL] ..          change other settings
  user add NAME --role read|register|admin [--prefix P]
  user password | role | remove NAME
  user list

nginx tests each change. If it refuses one, everything stays as it was.
"""

import subprocess
import sys

from .output import NO, Stop

READING = ("show", "list")


def add(parser) -> None:
    """The words go to avroreg-nginx as they are: `main` keeps them in `options.words`."""


def words_of(context) -> list[str]:
    """The arguments of avroreg-nginx."""
    words = context.options.words
    return ["user", *words] if context.options.command == "user" else words


def run(context) -> int:
    words, place = words_of(context), context.place
    executable = place.root / "usr/sbin/avroreg-nginx"
    if not executable.exists():
        raise Stop(NO, "the package avroreg-nginx isn't installed", "apt install ./avroreg-nginx_VERSION_all.deb")
    commands = [words]
    if words[:1] == ["on"]:  # nginx serves this registry from now on
        commands.insert(0, ["set", "--registry", place.name, "--registry-port", str(place.settings.port)])
    if not set(words[:2]) & set(READING):
        context.agree([("run", "\n".join(f"avroreg-nginx {' '.join(command)}" for command in commands)), ("if nginx refuses", "everything stays as it was")], asks=False)
    for command in commands:
        sys.stdout.flush()
        status = subprocess.run([executable, *command]).returncode
        if status:
            return status
    return 0
