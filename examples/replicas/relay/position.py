"""The position file: the last entry of the log that this node has applied, and the proof that avroreg's registry has it.

It may be older than the database, never newer: the relay writes a position after avroreg has committed all entries up to
it. From an older position, the relay applies entries again, which changes nothing.
"""
import dataclasses
import json
import os
import pathlib

from relay import witness
from relay.faults import Misconfigured
from relay.witness import Witness


@dataclasses.dataclass(frozen=True)
class Position:
    log: str = ""  # the log's name, empty before the first entry
    revision: int = 0
    digest: str = ""
    witness: Witness | None = None


def parse(text: bytes) -> Position:
    """The position in a file's text. `ValueError` if there is none."""
    try:
        found = json.loads(text)
        proof = found.pop("witness", None)
        position = Position(**found, witness=witness.parse(proof) if proof else None)
    except (TypeError, KeyError, AttributeError) as fault:
        raise ValueError(f"no position: {fault!r}") from fault
    if not (isinstance(position.log, str) and isinstance(position.revision, int) and isinstance(position.digest, str)):
        raise ValueError("a member of another type")
    return position


def text_of(position: Position) -> bytes:
    proof = position.witness.document() if position.witness else None
    return json.dumps({"log": position.log, "revision": position.revision, "digest": position.digest, "witness": proof}).encode()


def load(path: pathlib.Path) -> Position:
    """The saved position, or the position of an empty log if there is no file."""
    try:
        return parse(path.read_bytes())
    except FileNotFoundError:
        return Position()
    except (OSError, ValueError) as fault:
        raise Misconfigured(f"{path}: {fault}; remove it, or restore this node from a backup") from fault


def save(path: pathlib.Path, position: Position) -> None:
    """Replaces the file. After a crash the file has the old position or the new one."""
    new = path.with_name(path.name + ".new")
    new.unlink(missing_ok=True)
    with open(os.open(new, os.O_WRONLY | os.O_CREAT | os.O_EXCL, 0o600), "wb") as stream:
        stream.write(text_of(position))
        stream.flush()
        os.fsync(stream.fileno())
    os.replace(new, path)
    folder = os.open(path.parent, os.O_RDONLY)
    try:
        os.fsync(folder)
    finally:
        os.close(folder)
