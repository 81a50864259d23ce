"""All contents of a served registry: its subjects, versions, schemas by id, levels and modes."""

import http.client
import json
from collections.abc import Iterator
from urllib.parse import quote, urlsplit

from .output import ERROR, Stop

RESPONSE_SECONDS = 120
NGINX_STATUSES = (401, 403, 429, 502, 503, 504)  # avroreg has none of them


class Registry:
    """A registry, to send GET requests to."""

    def __init__(self, url: str, name: str):
        self.address, self.name = urlsplit(url), name

    def get(self, path: str) -> tuple[int, bytes]:
        """The status and the body of a response. Each request has its own connection."""
        connection = http.client.HTTPConnection(self.address.hostname, self.address.port or 80, timeout=RESPONSE_SECONDS)
        try:
            connection.request("GET", path, headers={"Connection": "close"})
            answer = connection.getresponse()
            status, body = answer.status, answer.read()
        except (OSError, http.client.HTTPException) as error:
            raise Stop(ERROR, f"{self.name}: GET {path}: {error!r}", "avroreg-admin doctor") from error
        finally:
            connection.close()
        if status in NGINX_STATUSES:
            raise Stop(ERROR, f"{self.name}: GET {path} got {status} from nginx: another program has avroreg's port")
        return status, body

    def get_list(self, path: str) -> list:
        """The list in the response, or an empty list if the status isn't 200."""
        status, body = self.get(path)
        return json.loads(body) if status == 200 else []


def paths_of(registry: Registry) -> Iterator[str]:
    """The paths of all contents of the registry."""
    yield from ("/config", "/mode", "/subjects", "/subjects?deleted=true")
    ids = set()
    for subject in registry.get_list("/subjects?deleted=true"):
        name = quote(subject, safe="")
        yield from (f"/config/{name}", f"/mode/{name}", f"/subjects/{name}/versions")
        yield f"/subjects/{name}/versions?deleted=true"
        for version in registry.get_list(f"/subjects/{name}/versions?deleted=true"):
            path = f"/subjects/{name}/versions/{version}?deleted=true"
            yield path
            ids.add(json.loads(registry.get(path)[1])["id"])
    for number in sorted(ids):
        yield from (f"/schemas/ids/{number}", f"/schemas/ids/{number}/versions?deleted=true")


def compare(restored: Registry, running: Registry) -> tuple[int, list[str]]:
    """How many responses were compared, and a text for each one that differs."""
    count, differing = 0, []
    for path in paths_of(restored):
        count += 1
        backup, now = restored.get(path), running.get(path)
        if backup != now:
            differing.append(f"GET {path}\nbackup   {backup[0]} {backup[1].decode(errors='replace')}\nrunning  {now[0]} {now[1].decode(errors='replace')}")
    return count, differing
