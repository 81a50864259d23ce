"""Which writes avroreg rejects as malformed (40001), whatever its registry has: docs/avro-registry-profile.md, "Requests".

The relay rejects them itself, so that they don't fill the log.
"""
import json
import math
import re
import urllib.parse
from typing import Any

MEMBERS = {b"config": "compatibility", b"mode": "mode", b"subjects": "schema"}
MAX_SUBJECT = 255
MAX_DEPTH = 127
CONTROL = re.compile(rb"[\x00-\x1f\x7f]")


def is_malformed(line: bytes, body: bytes) -> bool:
    """Whether avroreg rejects this write. The line is that of a write, by messages.is_write."""
    method, target = line.split(b" ")
    kind, *segments = target.partition(b"?")[0].split(b"/")[1:]
    decoded = [urllib.parse.unquote_to_bytes(it) for it in segments]
    if not all(map(is_text, decoded)) or (decoded and not is_subject(decoded[0])):
        return True
    return method != b"DELETE" and not has_string(body, MEMBERS[kind])


def is_text(text: bytes) -> bool:
    try:
        text.decode()
        return True
    except ValueError:
        return False


def is_subject(text: bytes) -> bool:
    return len(text) <= MAX_SUBJECT and not CONTROL.search(text)


def has_string(body: bytes, name: str) -> bool:
    """Whether the body is a JSON object with a string member of this name."""
    try:
        value = json.loads(body.decode(), parse_int=finite, parse_float=finite, parse_constant=finite)
        if b"\\u" in body:
            json.dumps(value, ensure_ascii=False).encode()  # fails for an unpaired surrogate
    except (ValueError, RecursionError):
        return False
    return isinstance(value, dict) and isinstance(value.get(name), str) and depth(value) <= MAX_DEPTH


def finite(text: str) -> float:
    number = float(text)
    if not math.isfinite(number):
        raise ValueError(f"{text[:20]} is no finite number")
    return number


def depth(value: Any) -> int:
    """How many arrays and objects lie in one another."""
    found, level = 0, [value]
    while level := [it for it in level if isinstance(it, (dict, list))]:
        found += 1
        level = [item for it in level for item in (it.values() if isinstance(it, dict) else it)]
    return found
