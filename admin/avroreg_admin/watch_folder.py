"""Metrics of a registry that no unit of this machine serves, such as a container's. It only measures."""

import base64
import http.client
import urllib.parse
from pathlib import Path

from . import metrics, places, watch
from .output import DONE, ERROR, USAGE, Stop

CONNECTIONS = {"http": http.client.HTTPConnection, "https": http.client.HTTPSConnection}


def credentials_of(file: Path) -> str:
    """The field Authorization for the user in this file. An error doesn't show the file's contents."""
    try:
        lines = file.read_text(encoding="utf-8").splitlines()
    except OSError as error:
        raise Stop(ERROR, f"cannot read {file}: {error.strerror}") from None
    except UnicodeError:
        lines = []
    if len(lines) != 1 or not all(lines[0].partition(":")):
        raise Stop(ERROR, f"{file} must have one line, USER:PASSWORD")
    return "Basic " + base64.b64encode(lines[0].encode()).decode()


def asker(url: str, user_file: Path | None):
    """A function in the place of `Place.ask`: it sends requests to this URL, as the user in the file."""
    parts = urllib.parse.urlsplit(url)
    if parts.scheme not in CONNECTIONS or not parts.hostname or parts.username:
        raise Stop(USAGE, "--url is http://HOST:PORT or https://HOST:PORT, without a user")
    fields = {"Authorization": credentials_of(user_file)} if user_file else {}

    def ask(method: str, path: str, body=None, timeout: float = places.ANSWER_SECONDS) -> tuple[int, object]:
        return places.ask(CONNECTIONS[parts.scheme](parts.hostname, parts.port, timeout=timeout), method, parts.path.rstrip("/") + path, body, fields)

    return ask


def run(context, place) -> int:
    """`place` is the folder. Writes the metrics to the target."""
    options = context.options
    place.ask = asker(options.url, options.user_file)
    found = watch.measure(place)
    found.name, found.backups = places.DEFAULT, None
    if found.probe.status in (401, 403):
        context.output.warn(f"{options.url}/config returned {found.probe.status}: --user-file must name a user with the role read")
    if not metrics.write(str(options.target), metrics.of(place, found)):
        raise Stop(ERROR, f"the disk is full: {options.target} is old")
    return DONE
