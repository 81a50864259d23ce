"""Another registry, with Confluent's REST interface: its contents, its settings, and writes."""

import base64
import getpass
import http.client
import json
import os
import ssl
import sys
from urllib.parse import quote, urlsplit

from .output import ERROR, NO, Stop

SECONDS = 60
TRIES = 3
CONTENT_TYPE = "application/vnd.schemaregistry.v1+json"
BODY_BYTES = 64 << 20


def password_of(user: str | None, variable: str) -> str | None:
    """The user's password, from the environment or a prompt."""
    if user is None or variable in os.environ:
        return os.environ.get(variable)
    if not sys.stdin.isatty():
        raise Stop(NO, f"set {variable}")
    return getpass.getpass(f"Password of {user}: ")


class Target:
    """Sends requests, each on its own connection. A request without a response is sent again: each one may be repeated."""

    def __init__(self, url: str, user: str | None, password: str | None, certificate: str | None):
        self.url, self.address = url.rstrip("/"), urlsplit(url)
        if self.address.scheme not in ("http", "https") or not self.address.hostname or self.address.username:
            raise Stop(NO, f"{url} is no address such as https://registry.example.org")
        self.context = ssl.create_default_context(cafile=certificate) if self.address.scheme == "https" else None
        self.headers = {"Connection": "close", "Accept": CONTENT_TYPE, "Content-Type": CONTENT_TYPE}
        if user is not None:
            self.headers["Authorization"] = "Basic " + base64.b64encode(f"{user}:{password or ''}".encode()).decode()

    def connect(self) -> http.client.HTTPConnection:
        if self.context is None:
            return http.client.HTTPConnection(self.address.hostname, self.address.port, timeout=SECONDS)
        return http.client.HTTPSConnection(self.address.hostname, self.address.port, timeout=SECONDS, context=self.context)

    def ask(self, method: str, path: str, body=None) -> tuple[int, object]:
        """The status and the value of a response."""
        for attempt in range(TRIES):
            connection = self.connect()
            try:
                connection.request(method, self.address.path.rstrip("/") + path, None if body is None else json.dumps(body), self.headers)
                response = connection.getresponse()
                data = response.read(BODY_BYTES)
                return response.status, json.loads(data or b"null")
            except (OSError, http.client.HTTPException, ValueError) as error:
                failure = error
            finally:
                connection.close()
        raise Stop(ERROR, f"{method} {self.url}{path}: {failure!r}") from failure

    def expect(self, method: str, path: str, body=None):
        """The value of a response with status 200."""
        status, value = self.ask(method, path, body)
        if status != 200:
            raise Stop(ERROR, f"{method} {self.url}{path} got {status}: {json.dumps(value)[:300]}")
        return value

    def setting(self, what: str, subject: str = "") -> str | None:
        """The level (`config`) or the mode of the registry or of a subject; None if the subject has none of its own."""
        status, value = self.ask("GET", f"/{what}" + (f"/{quote(subject, safe='')}" if subject else ""))
        if status == 404:
            return None
        if status != 200 or not isinstance(value, dict):
            raise Stop(ERROR, f"GET {self.url}/{what} got {status}: {json.dumps(value)[:300]}")
        return value.get("compatibilityLevel") or value.get("mode")

    def versions(self, subject: str) -> dict[int, dict]:
        """The versions of a subject by number: their ids, their schemas, and whether they are soft-deleted."""
        name, found = quote(subject, safe=""), {}
        status, listed = self.ask("GET", f"/subjects/{name}/versions")
        live = set(listed) if status == 200 else set()
        for number in self.expect("GET", f"/subjects/{name}/versions?deleted=true"):
            version = self.expect("GET", f"/subjects/{name}/versions/{number}?deleted=true")
            if not isinstance(version.get("id"), int) or not isinstance(version.get("schema"), str):
                raise Stop(ERROR, f"{self.url}: version {number} of {subject} has no id or no schema")
            found[number] = {"id": version["id"], "schema": version["schema"], "deleted": number not in live}
        return found

    def contents(self) -> dict[tuple[str, int], dict]:
        """All versions by subject and number."""
        subjects = self.expect("GET", "/subjects?deleted=true")
        if not isinstance(subjects, list) or not all(isinstance(subject, str) for subject in subjects):
            raise Stop(ERROR, f"{self.url} sends no list of subjects")
        return {(subject, number): version for subject in subjects for number, version in self.versions(subject).items()}
