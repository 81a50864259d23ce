"""Requests to the gateway and to the avroreg behind it, and checks of their responses."""
import dataclasses
import http.client
import json
import socket
import urllib.parse

TYPE = "application/vnd.schemaregistry.v1+json"


@dataclasses.dataclass
class Response:
    status: int
    fields: http.client.HTTPMessage
    body: bytes

    def json(self):
        return json.loads(self.body)


class Client:
    """A client of the gateway. `registry` is a client of the avroreg behind it."""

    def __init__(self, url, registry=None):
        self.address = urllib.parse.urlsplit(url).netloc
        self.registry = registry and Client(registry)

    def ask(self, method, target, body=None, fields=None):
        """Sends a request on its own connection, with exactly this target."""
        data = body if isinstance(body, (bytes, type(None))) else json.dumps(body).encode()
        connection = http.client.HTTPConnection(self.address, timeout=120)
        try:
            connection.request(method, target, data, fields or {})
            answer = connection.getresponse()
            response = Response(answer.status, answer.headers, answer.read())
        finally:
            connection.close()
        assert response.fields["Content-Type"] == TYPE, (method, target, response)
        return response

    def get(self, target):
        """The JSON of a response with 200."""
        return self.check_passed("GET", target).json()

    def check_passed(self, method, target, body=None, fields=None):
        response = self.ask(method, target, body, fields)
        assert response.status == 200, f"{method} {target}: {response.status} {response.body}"
        return response

    def check_same(self, wanted, method, target, body=None, fields=None):
        """Checks the JSON of a response with 200."""
        found = self.check_passed(method, target, body, fields).json()
        assert found == wanted, f"{method} {target}: wanted {wanted}, found {found}"

    def check_text(self, wanted, target):
        found = self.check_passed("GET", target).body.decode()
        assert found == wanted, f"GET {target}: wanted {wanted[:200]}, found {found[:200]}"

    def check_refused(self, code, method, target, body=None):
        """Checks an error's code, and the status that belongs to the code."""
        response = self.ask(method, target, body)
        found = response.json()
        assert (response.status, found["error_code"]) == (int(str(code)[:3]), code), f"{method} {target}: wanted {code}, found {found}"
        return found["message"]

    def check_pages(self, every, target, limits):
        """Reads a list in pages of these sizes, until a page is empty. All pages together have to be the list."""
        mark = "&" if "?" in target else "?"
        for limit in limits:
            found, page = [], None
            while page != []:
                page = self.get(f"{target}{mark}offset={len(found)}&limit={limit}")
                assert len(page) <= limit, (target, limit, page)
                found += page
                assert found == every[:len(found)], (target, limit, found)
            assert found == every, (target, limit, found)

    def send_bytes(self, message):
        """Sends bytes. Returns all bytes that come until the connection ends."""
        host, _, port = self.address.partition(":")
        with socket.create_connection((host, int(port)), timeout=30) as connection:
            connection.sendall(message)
            got = b""
            while more := connection.recv(65536):
                got += more
        return got


def record(name, *fields, **more):
    return json.dumps({"type": "record", "name": name, "fields": list(fields), **more})


def field(name, type="long", **more):
    return {"name": name, "type": type, **more}


FIRST = record("Order", field("id"))
SECOND = record("Order", field("id"), field("note", "string", default=""))
INCOMPATIBLE = record("Order", field("id"), field("note", "string", default=""), field("total", "double"))
