"""nginx's file of users and hashed passwords."""
import secrets
import subprocess
import sys

from .faults import Failed, Refused

BYTES = 24  # of a random password


def new_password(from_stdin: bool) -> str:
    """A password from standard input, or a random one."""
    if not from_stdin:
        return secrets.token_urlsafe(BYTES)
    password = sys.stdin.readline().rstrip("\n")
    if len(password) < 12 or not password.isprintable():
        raise Refused("the password has less than 12 characters, or a control character")
    return password


def hash_of(password: str) -> str:
    """nginx checks the hash at each request, so it is a fast one. Random passwords can't be guessed from it."""
    try:
        made = subprocess.run(["openssl", "passwd", "-apr1", "-stdin"], input=password + "\n", capture_output=True, text=True, check=True)
    except (OSError, subprocess.CalledProcessError) as fault:
        raise Failed(f"openssl made no hash: {fault}") from None
    return made.stdout.strip()


def parse(text: str) -> dict[str, str]:
    """The hash of each user."""
    return dict(line.split(":", 1) for line in text.splitlines() if ":" in line)


def text_of(hashes: dict[str, str]) -> str:
    return "".join(f"{user}:{each}\n" for user, each in sorted(hashes.items()))
