#!/usr/bin/env python3
"""Sends the same reads to two registries, and compares each response.

    python3 examples/from-confluent/compare.py FROM TO PROGRAM [MOVED]

FROM returns the JSON of Confluent's registry. Or both are avroreg; then the script compares the responses byte for byte.
PROGRAM is avroreg, which prints the identity text of a schema. MOVED is the mover's output, if it gave new ids.
"""
import functools
import http.client
import itertools
import json
import re
import subprocess
import sys
import tempfile
import urllib.parse


class Server:
    def __init__(self, url):
        parts = urllib.parse.urlsplit(url)
        self.connection = http.client.HTTPConnection(parts.hostname, parts.port, timeout=60)

    def ask(self, path, schema=None):
        """Sends a request, again if the server has closed the connection. Returns the status and the body of the response."""
        request = ("GET", path) if schema is None else ("POST", path, json.dumps({"schema": schema}).encode())
        try:
            self.connection.request(*request)
            answer = self.connection.getresponse()
        except (http.client.RemoteDisconnected, ConnectionError):
            self.connection.close()
            self.connection.request(*request)
            answer = self.connection.getresponse()
        return answer.status, answer.read()

    def get(self, path):
        """The JSON at the path, or an empty list if the status isn't 200."""
        status, body = self.ask(path)
        return json.loads(body) if status == 200 else []


@functools.cache
def identity(program, text):
    with tempfile.NamedTemporaryFile("w", encoding="utf-8") as file:
        file.write(text)
        file.flush()
        return subprocess.run([program, "text", file.name], check=True, capture_output=True).stdout.decode().rstrip("\n")


def comparable(value):
    """The comparable part of a response: a list without its order, the code of an error."""
    if isinstance(value, list):
        return sorted(value, key=str)
    return value["error_code"] if isinstance(value, dict) and "error_code" in value else value


class Comparison:
    def __init__(self, source, target, program, new_ids):
        self.source, self.target, self.program, self.new_ids = source, target, program, new_ids
        self.is_exact = source.ask("/contexts")[0] == 404
        self.compared = self.differing = 0

    def expected(self, value):
        """The JSON that avroreg must return if the other registry returns this."""
        if isinstance(value, list):
            return sorted(value, key=str)
        if isinstance(value, dict) and "error_code" not in value:
            found = dict(value)
            if "id" in found:
                found["id"] = self.new_ids.get(found["id"], found["id"])
            if "schema" in found:
                found["schema"] = identity(self.program, found["schema"])
            return found
        return comparable(value)

    def compare(self, path, schema=None, at_target=None):
        first, second = self.source.ask(path, schema), self.target.ask(at_target or path, schema)
        if not self.is_exact:
            first = first[0], self.expected(json.loads(first[1]))
            second = second[0], comparable(json.loads(second[1]))
        self.count_pair(path, first, second)

    def compare_schema(self, path):
        """Compares the schema at a path. avroreg returns its identity text, and the other registry a text with this identity."""
        first, second = self.source.ask(path), self.target.ask(path)
        if not self.is_exact:
            first = identity(self.program, first[1].decode()) if first[0] == 200 else comparable(json.loads(first[1]))
            second = second[1].decode() if second[0] == 200 else comparable(json.loads(second[1]))
        self.count_pair(path, first, second)

    def count_pair(self, path, first, second):
        self.compared += 1
        if first != second:
            self.differing += 1
            print(f"{path}: {first} at FROM, {second} at TO")

    def compare_settings(self, name=""):
        for kind in "config", "mode":
            path = f"/{kind}/{name}" if name else f"/{kind}"
            self.compare(path)
            self.compare(f"{path}?defaultToGlobal=true")

    def compare_subject(self, name):
        quoted = urllib.parse.quote(name, safe="")
        path = f"/subjects/{quoted}/versions"
        numbers = self.source.get(f"{path}?deleted=true")
        self.compare_settings(quoted)
        self.compare(path)
        self.compare(f"{path}?deleted=true")
        self.compare(f"{path}/latest")
        for number in range(1, max(numbers, default=0) + 2):
            self.compare(f"{path}/{number}")
            self.compare(f"{path}/{number}?deleted=true")
            self.compare_schema(f"{path}/{number}/schema")
        for number in numbers:
            schema = self.source.get(f"{path}/{number}?deleted=true")["schema"]
            self.compare(f"/subjects/{quoted}", schema)
            self.compare(f"/subjects/{quoted}?deleted=true", schema)
        return [self.source.get(f"{path}/{number}?deleted=true")["id"] for number in numbers]

    def compare_id(self, number):
        self.compare(f"/schemas/ids/{number}")
        self.compare(f"/schemas/ids/{number}/versions")
        self.compare(f"/schemas/ids/{number}/versions?deleted=true")

    def compare_new_ids(self, ids):
        """Compares the schemas of changed ids, and the versions of the ids that became one."""
        olds = {}
        for number in sorted(ids):
            olds.setdefault(self.new_ids.get(number, number), []).append(number)
        for new, numbers in olds.items():
            for number in numbers:
                self.compare(f"/schemas/ids/{number}", at_target=f"/schemas/ids/{new}")
            for query in "", "?deleted=true":
                first = [it for number in numbers for it in self.source.get(f"/schemas/ids/{number}/versions{query}")]
                second = self.target.get(f"/schemas/ids/{new}/versions{query}")
                self.count_pair(f"/schemas/ids/{new}/versions{query}", sorted(first, key=str), sorted(second, key=str))

    def compare_all(self):
        self.compare("/subjects")
        self.compare("/subjects?deleted=true")
        self.compare_settings()
        names = self.source.get("/subjects?deleted=true")
        ids = set(itertools.chain(*(self.compare_subject(name) for name in [*names, "no such subject"])))
        if self.new_ids:
            self.compare_new_ids(ids)
        else:
            for number in range(max(min(ids, default=1) - 50, 1), max(ids, default=0) + 2):
                self.compare_id(number)
        return len(names)


def main():
    source, target, program = Server(sys.argv[1]), Server(sys.argv[2]), sys.argv[3]
    new_ids = {}
    if len(sys.argv) > 4:
        with open(sys.argv[4], encoding="utf-8") as moved:
            new_ids = {int(old): int(new) for old, new in re.findall(r"^id (\d+) becomes (\d+)$", moved.read(), re.M)}
    comparison = Comparison(source, target, program, new_ids)
    subjects = comparison.compare_all()
    kind = "byte for byte" if comparison.is_exact else "by their meaning"
    print(f"{subjects} subjects, {comparison.compared} requests to both, compared {kind}: {comparison.differing} responses differ")
    sys.exit(comparison.differing > 0)


if __name__ == "__main__":
    main()
