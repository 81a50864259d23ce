#!/usr/bin/env python3
"""Sends the same requests to avroreg alone and to avroreg behind nginx, and compares the responses byte for byte. Then it
checks two differences: nginx accepts a chunked body, and a silent client delays nobody. Both registries must be new.

    python3 examples/nginx/same.py PORT NGINX_PORT
"""
import contextlib
import http.client
import json
import socket
import sys
import time

ORDER = '{"type":"record","name":"Order","fields":[{"name":"id","type":"long"}%s]}'
NOTE = ',{"name":"note","type":"string","default":"é"}'
TOTAL = ',{"name":"total","type":"double"}'
KEY = "Registry-Retry-Key"
VERSIONS = "/subjects/orders/versions"
COMPARED = ("Content-Type", "Allow")


def schema(text, **more):
    return json.dumps({"schema": text, **more}).encode()


def level(text):
    return json.dumps({"compatibility": text}).encode()


def mode(text):
    return json.dumps({"mode": text}).encode()


REQUESTS = [
    ("GET", "/subjects", {}, None),
    ("GET", "/config", {}, None),
    ("PUT", "/config/orders", {KEY: "k1"}, level("FULL")),
    ("PUT", "/config/orders", {KEY: "k1"}, level("FULL")),
    ("PUT", "/config/orders", {KEY: "k1"}, level("NONE")),
    ("PUT", "/config/orders", {KEY: "no key"}, level("NONE")),
    ("PUT", "/config", {}, level("full")),
    ("PUT", "/config", {}, b"{"),
    ("PUT", "/config", {}, None),
    ("PATCH", "/config", {}, level("FULL")),
    ("DELETE", "/config", {}, None),
    ("POST", VERSIONS, {KEY: "k2"}, schema(ORDER % "")),
    ("POST", VERSIONS, {KEY: "k3"}, schema(ORDER % NOTE)),
    ("POST", VERSIONS, {KEY: "k4"}, schema(ORDER % TOTAL)),
    ("POST", VERSIONS, {KEY: "k4"}, schema(ORDER % TOTAL)),
    ("POST", VERSIONS, {}, schema("nonsense")),
    ("POST", VERSIONS, {}, schema("{}", schemaType="JSON")),
    ("POST", VERSIONS + "?normalize=true", {}, schema(ORDER % NOTE)),
    ("POST", "/subjects/orders", {}, schema(ORDER % "")),
    ("POST", "/subjects/orders?deleted=true", {}, schema(ORDER % TOTAL)),
    ("POST", "/compatibility/subjects/orders/versions/latest?verbose=false", {}, schema(ORDER % TOTAL)),
    ("POST", "/compatibility/subjects/orders/versions", {}, schema(ORDER % NOTE)),
    ("GET", VERSIONS, {}, None),
    ("GET", VERSIONS + "/latest", {}, None),
    ("GET", VERSIONS + "/2/schema", {}, None),
    ("GET", VERSIONS + "/02", {}, None),
    ("GET", VERSIONS + "/-1", {}, None),
    ("GET", "/schemas/ids/2", {}, None),
    ("GET", "/schemas/ids/2/versions", {}, None),
    ("GET", "/schemas/ids/99", {}, None),
    ("GET", "/schemas/types", {}, None),
    ("POST", "/subjects/a%2Fb%20%C3%BC+c/versions", {}, schema('"string"')),
    ("GET", "/subjects", {}, None),
    ("GET", "/subjects//versions", {}, None),
    ("GET", "/subjects/", {}, None),
    ("GET", "/", {}, None),
    ("GET", "/mode", {}, None),
    ("PUT", "/mode", {}, mode("READONLY")),
    ("GET", "/mode", {}, None),
    ("PUT", "/mode/orders", {KEY: "m1"}, mode("READWRITE")),
    ("GET", "/mode/orders", {}, None),
    ("GET", "/mode/a%2Fb%20%C3%BC+c", {}, None),
    ("GET", "/mode/a%2Fb%20%C3%BC+c?defaultToGlobal=true", {}, None),
    ("POST", "/subjects/a%2Fb%20%C3%BC+c/versions", {KEY: "m2"}, schema('"int"')),
    ("DELETE", "/subjects/a%2Fb%20%C3%BC+c", {}, None),
    ("PUT", "/config/orders", {}, level("FULL")),
    ("PUT", "/config", {}, level("FULL")),
    ("PUT", "/mode", {}, mode("IMPORT")),
    ("PUT", "/mode", {}, mode("READWRITE")),
    ("POST", "/subjects/a%2Fb%20%C3%BC+c/versions", {KEY: "m2"}, schema('"int"')),
    ("DELETE", "/mode", {}, None),
    ("GET", "/subjects/%FF/versions", {}, None),
    ("DELETE", VERSIONS + "/2", {KEY: "k5"}, None),
    ("DELETE", VERSIONS + "/2", {KEY: "k5"}, None),
    ("DELETE", VERSIONS + "/2", {}, None),
    ("DELETE", VERSIONS + "/1?permanent=true", {}, None),
    ("GET", VERSIONS + "?deleted=true", {}, None),
    ("DELETE", "/subjects/orders", {}, None),
    ("DELETE", "/subjects/orders?permanent=true", {}, None),
    ("GET", VERSIONS, {}, None),
    ("POST", VERSIONS, {}, schema(json.dumps({"type": "enum", "name": "E", "symbols": [], "doc": "x" * 1048000}))),
    ("GET", VERSIONS + "/latest", {}, None),
    ("PUT", "/config", {}, b" " * 1048576),
    ("PUT", "/config", {}, b" " * 1048577),
]


def exchange(connection, method, target, fields, body):
    """Sends a request. Returns the response's status, its compared header fields and its body."""
    with contextlib.suppress(BrokenPipeError, ConnectionResetError):  # if the server rejects the body by its length
        connection.request(method, target, body, fields)
    answer = connection.getresponse()
    return answer.status, [answer.headers[name] for name in COMPARED], answer.read()


def request_once(port, *request):
    """Sends a request on its own connection, and returns the response."""
    connection = http.client.HTTPConnection("127.0.0.1", port, timeout=60)
    try:
        return exchange(connection, *request)
    finally:
        connection.close()


def compare(alone, behind):
    for request in REQUESTS:
        first, second = request_once(alone, *request), request_once(behind, *request)
        assert first == second, f"{request[:2]}: alone {first}, behind nginx {second}"
    print(f"{len(REQUESTS)} requests: the same responses alone and behind nginx")


def status_of_chunked(port):
    """Sends a chunked body, and returns the status."""
    with socket.create_connection(("127.0.0.1", port), timeout=60) as connection:
        connection.sendall(b"POST /subjects/chunks/versions HTTP/1.1\r\nHost: 127.0.0.1\r\nTransfer-Encoding: chunked\r\n\r\n"
                           b"a\r\n{\"schema\":\r\n"b"a\r\n\"\\\"int\\\"\"}\r\n0\r\n\r\n")
        return int(connection.recv(4096).split()[1])


def compare_chunked(alone, behind):
    """Checks that avroreg alone rejects a chunked body, and accepts it behind nginx."""
    found = status_of_chunked(alone), status_of_chunked(behind)
    assert found == (501, 200), found
    print("a chunked body: 501 alone, 200 behind nginx")


def wait_time(port):
    """How long a client waits while another one keeps its connection open and sends nothing."""
    with socket.create_connection(("127.0.0.1", port)) as silent:
        silent.sendall(b"GET /config HTTP/1.1\r\nHost: 127.0.0.1\r\n\r\n")
        silent.recv(1)
        began = time.monotonic()
        assert request_once(port, "GET", "/config", {}, None)[0] == 200
        return time.monotonic() - began


def main():
    alone, behind = map(int, sys.argv[1:])
    compare(alone, behind)
    compare_chunked(alone, behind)
    first, second = wait_time(alone), wait_time(behind)
    assert second < 1, (first, second)
    print(f"next to a client that sends nothing, a response takes {first:.3f} s alone, {second:.3f} s behind nginx")


if __name__ == "__main__":
    main()
