#!/usr/bin/env python3
"""Checks the facts about requests in docs/clients.md: the paths that tools need, and the differences from Confluent's registry.

    python3 examples/clients/facts.py URL      URL of a registry without subjects; the script leaves no live ones
"""
from __future__ import annotations

import http.client
import json
import sys
import urllib.parse

ORDER = {"type": "record", "name": "Order", "fields": [{"name": "id", "type": "long"}]}
WITH_NOTE = {**ORDER, "fields": [*ORDER["fields"], {"name": "note", "type": "string", "default": ""}]}
WITH_TOTAL = {**ORDER, "fields": [*ORDER["fields"], {"name": "total", "type": "double"}]}


class Registry:
    def __init__(self, url: str):
        self.address = urllib.parse.urlsplit(url).netloc

    def ask(self, method: str, path: str, body: object = None, fields: dict | None = None) -> tuple[int, object]:
        """Sends a request on its own connection. Returns the status and JSON of the response."""
        connection = http.client.HTTPConnection(self.address, timeout=60)
        data = json.dumps(body).encode() if body is not None else None
        connection.request(method, path, data, {"Connection": "close", **(fields or {})})
        answer = connection.getresponse()
        text = answer.read()
        connection.close()
        return answer.status, json.loads(text) if text else None

    def check(self, wanted: object, method: str, path: str, body: object = None, fields: dict | None = None):
        """Checks a response. If `wanted` is a number, it is an error code; otherwise it is the JSON of a response with 200."""
        status, found = self.ask(method, path, body, fields)
        if isinstance(wanted, int) and not isinstance(found, int):
            code = found.get("error_code") if isinstance(found, dict) else None
            assert (code, status) == (wanted, int(str(wanted)[:3])), (method, path, status, found)
        else:
            assert (status, found) == (200, wanted), (method, path, status, found)

    def check_exists(self, method: str, path: str, body: object = None):
        """Checks that the registry has the path: a request gets 200, or an error that isn't about the path or the method."""
        status, found = self.ask(method, path, body)
        assert status == 200 or found["error_code"] not in (404, 405), (method, path, found)


def schema(value: object, **more: object) -> dict:
    return {"schema": json.dumps(value), **more}


TOOLS = {
    "kcat": [("GET", "/schemas/ids/1")],
    "kafka-ui": [("GET", "/subjects"), ("GET", "/subjects/s/versions"), ("GET", "/subjects/s/versions/latest"),
                 ("POST", "/subjects/s/versions"), ("DELETE", "/subjects/s"), ("DELETE", "/subjects/s/versions/1"),
                 ("GET", "/config"), ("PUT", "/config"), ("GET", "/config/s"), ("PUT", "/config/s"),
                 ("POST", "/compatibility/subjects/s/versions/latest")],
    "AKHQ": [("GET", "/subjects"), ("GET", "/subjects/s/versions"), ("GET", "/subjects/s/versions/1"),
             ("POST", "/subjects/s/versions"), ("DELETE", "/subjects/s"), ("DELETE", "/subjects/s/versions/1"),
             ("GET", "/config/s"), ("PUT", "/config/s"), ("POST", "/compatibility/subjects/s/versions/latest")],
    "Redpanda Console": [("GET", "/subjects?deleted=true"), ("GET", "/subjects/s/versions?deleted=true"),
                         ("GET", "/schemas/types"), ("GET", "/config"), ("PUT", "/config/s"), ("GET", "/mode"),
                         ("GET", "/schemas/ids/1"), ("GET", "/schemas/ids/1/versions")],
    "Terraform providers": [("POST", "/subjects/s/versions"), ("POST", "/subjects/s"), ("GET", "/subjects/s/versions/latest"),
                            ("DELETE", "/subjects/s"), ("GET", "/config/s"), ("PUT", "/config/s"), ("GET", "/mode/s"),
                            ("PUT", "/mode/s")],
}
MISSING = [("GET", "/contexts"), ("GET", "/schemas"), ("GET", "/schemas/ids/1/schema"), ("GET", "/schemas/ids/1/subjects"),
           ("GET", "/subjects/s/versions/1/referencedby"), ("GET", "/"), ("GET", "/subjects/"),
           ("POST", "/compatibility/subjects/s/versions/")]


def check_paths(registry: Registry):
    for tool, calls in TOOLS.items():
        for method, path in calls:
            registry.check_exists(method, path, {} if method in ("PUT", "POST") else None)
        print(f"{tool}: avroreg has the path of each call ({len(calls)})")
    for method, path in MISSING:
        registry.check(404, method, path, {} if method == "POST" else None)
    for path in "/config", "/config/s", "/mode", "/mode/s":
        registry.check(405, "DELETE", path)


def check_schemas(registry: Registry):
    versions = "/subjects/numbers/versions"
    registry.check({"compatibility": "NONE"}, "PUT", "/config/numbers", {"compatibility": "NONE"})
    for number in "0.5", "1.0E10", "1e3", "1E0":
        registry.check(42201, "POST", versions, {"schema": f'{{"type":"int","connect.default":{number}}}'})
        text = f'{{"type":"record","name":"R","fields":[{{"name":"f","type":"double","default":{number}}}]}}'
        registry.check(42201, "POST", versions, {"schema": text})
    registry.check({"id": 1}, "POST", versions, {"schema": '{"type":"int","connect.default":0.0}'})
    registry.check(42201, "POST", versions, {"schema": 'syntax = "proto3";', "schemaType": "PROTOBUF"})
    registry.check(42201, "POST", versions, {"schema": '{"type":"object"}', "schemaType": "JSON"})
    reference = {"name": "Order", "subject": "orders", "version": 1}
    registry.check(42201, "POST", versions, schema("Order", references=[reference]))
    # no spaces, full names, keys in byte order
    text = '{"type" : "enum", "namespace": "shop", "name": "State", "symbols": ["NEW"], "doc": "new"}'
    registry.check({"id": 2}, "POST", versions, {"schema": text})
    canonical = '{"doc":"new","name":"shop.State","symbols":["NEW"],"type":"enum"}'
    registry.check({"schema": canonical}, "GET", "/schemas/ids/2")
    registry.check({"id": 2}, "POST", versions, {"schema": canonical})


def check_parameters(registry: Registry):
    versions = "/subjects/orders/versions"
    registry.check({"id": 3}, "POST", versions + "?normalize=true&format=resolved", schema(ORDER))
    registry.check({"id": 4}, "POST", versions, schema(WITH_NOTE, schemaType="AVRO", references=[]))
    check = "/compatibility/subjects/orders/versions"
    registry.check({"is_compatible": False}, "POST", check + "?verbose=true", schema(WITH_TOTAL))
    registry.check({"is_compatible": True}, "POST", check + "?verbose=true", schema(ORDER))
    registry.check({"is_compatible": False}, "POST", check + "/1", schema(WITH_TOTAL))
    registry.check(42202, "GET", versions + "/-1")
    registry.check(["numbers", "orders"], "GET", "/subjects?subjectPrefix=o")
    found = {"id": 3, "schema": json.dumps(ORDER, sort_keys=True, separators=(",", ":")), "subject": "orders", "version": 1}
    registry.check(1, "DELETE", versions + "/1")
    # soft-deleted versions are listed only with deleted=true, but an id returns their schema without it
    registry.check([2], "GET", versions)
    registry.check([2], "GET", versions + "?deletedOnly=true")
    registry.check([1, 2], "GET", versions + "?deleted=true")
    registry.check(40402, "GET", versions + "/1")
    registry.check(found, "GET", versions + "/1?deleted=true")
    registry.check(40403, "POST", "/subjects/orders", schema(ORDER))
    registry.check(found, "POST", "/subjects/orders?deleted=true", schema(ORDER))
    registry.check({"schema": found["schema"]}, "GET", "/schemas/ids/3?fetchMaxId=false&subject=orders")


def check_levels_and_modes(registry: Registry):
    registry.check(42203, "PUT", "/config", {"compatibility": "full"})
    for mode in "IMPORT", "READONLY_OVERRIDE":
        registry.check(42204, "PUT", "/mode?force=true", {"mode": mode})
    registry.check(40408, "GET", "/config/orders")
    registry.check({"compatibilityLevel": "BACKWARD"}, "GET", "/config/orders?defaultToGlobal=true")
    registry.check(40409, "GET", "/mode/orders")
    registry.check({"mode": "READWRITE"}, "GET", "/mode/orders?defaultToGlobal=true")
    registry.check({"mode": "READONLY"}, "PUT", "/mode/orders", {"mode": "READONLY"})
    # the subject has this schema, but READONLY comes first
    registry.check(42205, "POST", "/subjects/orders/versions", schema(WITH_NOTE))
    assert registry.ask("POST", "/subjects/orders", schema(WITH_NOTE))[1]["version"] == 2
    registry.check({"is_compatible": True}, "POST", "/compatibility/subjects/orders/versions", schema(ORDER))
    # another subject isn't read-only, and with another key the same write is applied later
    registry.check({"id": 4}, "POST", "/subjects/others/versions", schema(WITH_NOTE))
    write = "POST", "/subjects/orders/versions", schema({**WITH_NOTE, "doc": "new"})
    registry.check(42205, *write, {"Registry-Retry-Key": "facts-1"})
    registry.check({"mode": "READWRITE"}, "PUT", "/mode/orders", {"mode": "READWRITE"})
    registry.check(42205, *write, {"Registry-Retry-Key": "facts-1"})
    registry.check({"id": 5}, *write, {"Registry-Retry-Key": "facts-2"})


def check_requests(registry: Registry):
    registry.check(501, "POST", "/subjects/s/versions", None, {"Transfer-Encoding": "chunked"})
    assert registry.ask("HEAD", "/config")[0] == 405
    in_context = "/subjects/" + urllib.parse.quote(":.other:orders", safe="") + "/versions"
    registry.check({"id": 6}, "POST", in_context, schema("string"))
    registry.check([1], "GET", in_context)
    for name in registry.ask("GET", "/subjects")[1]:
        assert registry.ask("DELETE", "/subjects/" + urllib.parse.quote(name, safe=""))[0] == 200


def main():
    registry = Registry(sys.argv[1])
    check_paths(registry)
    check_schemas(registry)
    check_parameters(registry)
    check_levels_and_modes(registry)
    check_requests(registry)
    print("each fact of docs/clients.md on requests holds")


if __name__ == "__main__":
    main()
