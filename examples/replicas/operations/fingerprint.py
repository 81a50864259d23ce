"""A hash of all responses of a node's avroreg to reads. Two nodes at one revision have the same hash, unless a file was changed.

The digest covers avroreg's responses to writes. It misses a changed row that no later write depends on. The hash detects
that row, if a read returns it.
"""
import hashlib
import http.client
import json
import time
import urllib.parse
from typing import Iterator

from relay.config import Address, Config

ATTEMPTS = 20
RETRY_SECONDS = 1.0


class Unanswered(Exception):
    """This node doesn't answer a read now."""


class Reader:
    def __init__(self, address: Address) -> None:
        self.connection = http.client.HTTPConnection(*address, timeout=60)

    def get(self, target: str) -> tuple[int, bytes]:
        self.connection.request("GET", target, headers={"Cache-Control": "max-stale"})
        response = self.connection.getresponse()
        return response.status, response.read()

    def read(self, target: str) -> tuple[str, int, bytes]:
        """The target, and the response of this node's avroreg."""
        status, body = self.get(target)
        if status >= 500:
            raise Unanswered(f"a read got {status}: {body[:200]!r}")
        return target, status, body


def all_reads(reader: Reader) -> Iterator[tuple[str, int, bytes]]:
    """The target of each read, with its response."""

    read = reader.read
    subjects = read("/subjects?deleted=true")
    yield subjects
    yield from map(read, ("/config", "/mode", "/subjects"))
    ids = set()
    for name in json.loads(subjects[2]):
        subject = urllib.parse.quote(name, safe="")
        yield from (read(f"/{it}/{subject}?defaultToGlobal=true") for it in ("config", "mode"))
        versions = read(f"/subjects/{subject}/versions?deleted=true")
        yield versions
        yield read(f"/subjects/{subject}/versions")
        for number in json.loads(versions[2]):
            version = read(f"/subjects/{subject}/versions/{number}?deleted=true")
            yield version
            ids.add(json.loads(version[2])["id"])
    for number in sorted(ids):
        yield read(f"/schemas/ids/{number}")
        yield read(f"/schemas/ids/{number}/versions?deleted=true")


def fingerprint(config: Config) -> tuple[int, str]:
    """The revision and the hash. If an entry was applied meanwhile, or a read got no answer, it reads again."""
    fault = "writes come faster than this node can be read: pause them first"
    for _ in range(ATTEMPTS):
        before = revision(config.admin)
        try:
            found = hash_of(all_reads(Reader(config.listen)))
            if revision(config.admin) == before:
                return before, found
        except Unanswered as unanswered:
            fault = str(unanswered)
            time.sleep(RETRY_SECONDS)
    raise TimeoutError(fault)


def hash_of(reads: Iterator[tuple[str, int, bytes]]) -> str:
    found = hashlib.sha256()
    for target, status, body in reads:
        for part in (target.encode(), b"%d" % status, body):
            found.update(b"%d:%s" % (len(part), part))
    return found.hexdigest()[:32]


def revision(admin: Address) -> int:
    status, body = Reader(admin).get("/health")
    found = json.loads(body)
    if found["status"] == "stopped":
        raise TimeoutError(f"this node is stopped: {found['reasons'][0]}")
    return int(found["revision"])
