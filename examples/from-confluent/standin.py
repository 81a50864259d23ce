#!/usr/bin/env python3
"""A read-only stand-in for Confluent's registry, for tests. Its contents are those after a random history of writes.

    python3 examples/from-confluent/standin.py PORT [options]

Some of its versions are soft-deleted, some numbers have no version, some schemas were registered again, and some subjects
have their own level. Each id is in use, and ids are in order, unless --lost-ids allows permanent deletions. It lists all
versions (GET /schemas) in pages. It accepts no writes: each request but GET and a lookup gets 405.
"""
import argparse
import base64
import contextlib
import email.utils
import http.server
import json
import random
import re
import ssl
import threading
import time
import urllib.parse

FORMS = [
    '{"type":"record","name":"Order_N","namespace":"shop.orders","doc":"é \\"all\\" of it\\n","fields":[{"name":"id",'
    '"type":"long"},{"name":"note","type":["null","string"],"default":null}]}',
    '{"type":"enum","name":"State_N","namespace":"shop","doc":"","symbols":["NEW","PAID"],"default":"NEW"}',
    '{"type" : "fixed", "name":"a.b.Hash_N", "size":16, "aliases":["Old", "c.Older"]}',
    '{"type":"record","name":"Tree_N","namespace":"a","fields":[{"name":"left","type":["null","Tree_N"],"default":null},'
    '{"name":"day","type":{"type":"int","logicalType":"date"},"order":"ascending","aliases":[]},'
    '{"name":"x","type":{"type":"fixed","name":"X","namespace":"","size":2}},{"name":"y","type":"X","order":"ignore"}]}',
    '{"type":"array","items":{"type":"record","name":"Line_N","fields":[{"name":"price","type":"double","default":-16.0}]}}',
    '["null",{"type":"map","values":{"type":"record","name":"Empty_N","aliases":[],"fields":[]}},{"type":"string"}]',
]
SHARED = ['"string"', '"long"', '{"type":"bytes"}', '{"type":"string","avro.java.string":"String"}']
NAMES = ["a/b ü+c", "100%25", "?deleted=true&x", "#", "'\"\\", "s" * 255, "ß-value", "..", "latest", "a;b=c", "日本"]
LEVELS = ["NONE", "BACKWARD", "FORWARD", "FULL", "BACKWARD_TRANSITIVE", "FORWARD_TRANSITIVE", "FULL_TRANSITIVE"]
FOREIGN = [
    ('{"type":"object"}', {"schemaType": "JSON"}),
    ('syntax = "proto3"; message M {}', {"schemaType": "PROTOBUF"}),
    ('{"type":"record","name":"Refers","fields":[]}', {"references": [{"name": "O", "subject": "orders", "version": 1}]}),
    ('{"type":"record","name":"Tagged","fields":[]}', {"metadata": {"tags": {"f": ["PII"]}}}),
    ('{"type":"record","name":"Ruled","fields":[]}', {"ruleSet": {"domainRules": [{"name": "r"}]}}),
    ('{"type":"record","name":"Half","fields":[{"name":"f","type":"double","default":0.5}]}', {}),
]
TWINS = ['{"type":"enum","name":"Twin","symbols":[]}', '{"symbols":[],"name":"Twin","type":"enum"}']


class Registry:
    """The versions by subject and number, each with its id and whether it is soft-deleted. A schema is a text and members."""

    def __init__(self, options):
        self.random = random.Random(options.seed)
        self.first_id = options.first_id
        self.ids, self.schemas, self.subjects, self.first_versions, self.registered = {}, {}, {}, set(), 0
        self.level, self.levels, self.mode, self.modes = "FULL_TRANSITIVE", {}, "READWRITE", {}
        names = NAMES[:options.subjects] + [f"topic-{at}-value" for at in range(len(NAMES), options.subjects)]
        for name in names:
            self.register(name, self.schema())
        while sum(map(len, self.subjects.values())) < options.versions:
            self.change_at_random(self.random.choice(names), options.lost_ids)
        for name in self.random.sample(names, len(names) // 5):
            self.levels[name] = self.random.choice(LEVELS)
        if options.modes:
            self.mode = "READONLY"
            self.modes = {name: self.random.choice(["READONLY", "READWRITE"]) for name in names[::10]}
        for schema, name in zip(TWINS if options.twins else [], names):
            self.register(name, (schema, {}))
        if options.foreign:
            self.add_foreign(names)

    def schema(self):
        """A new schema, or one that other subjects have, too."""
        existing_id = self.random.random()
        if existing_id < 0.1:
            return self.random.choice(SHARED), {}
        if existing_id < 0.25 and self.schemas:
            return self.schemas[self.random.choice(list(self.schemas))]
        self.registered += 1
        return self.random.choice(FORMS).replace("_N", f"_{self.registered}"), {}

    def register(self, name, schema):
        versions = self.subjects.setdefault(name, {})
        key = json.dumps(schema)
        if key not in self.ids:
            self.ids[key] = len(self.ids) + self.first_id
            self.schemas[self.ids[key]] = schema
            self.first_versions.add((name, max(versions, default=0) + 1))
        if [self.ids[key], False] not in versions.values():
            versions[max(versions, default=0) + 1] = [self.ids[key], False]

    def change_at_random(self, name, lost_ids):
        """Registers a version, or deletes one softly or permanently. The first version of an id stays, unless ids may be lost."""
        number = self.random.choice(list(self.subjects[name]))
        version = self.subjects[name][number]
        if version[1] and (lost_ids or (name, number) not in self.first_versions) and len(self.subjects[name]) > 1:
            del self.subjects[name][number]
        elif self.random.random() < 0.2:
            version[1] = True
        elif self.random.random() < 0.1:
            self.register(name, self.schemas[version[0]])
        else:
            self.register(name, self.schema())

    def add_foreign(self, names):
        """Adds versions that avroreg doesn't accept, one of each kind in a subject."""
        for name, schema in zip(names[20:], FOREIGN):
            self.register(name, schema)
        self.register(":.other:orders", ('"string"', {}))
        self.modes[names[2]] = "IMPORT"


class Fault(Exception):
    def __init__(self, code, message, retry_after=None):
        super().__init__(message)
        self.code, self.retry_after = code, retry_after


class Busy:
    """Makes each `every`th request fail as at a busy registry: with 429 or 503 and Retry-After, with 500 or 502, or with a closed
    connection. The next request succeeds. It counts the requests that come before the time of Retry-After."""

    def __init__(self, every):
        self.every, self.count, self.earliest, self.soon = every, 0, 0.0, 0
        self.lock = threading.Lock()

    def check(self):
        if not self.every:
            return
        with self.lock:
            if time.time() < self.earliest:
                self.soon += 1
            self.earliest = 0.0
            self.count += 1
            if self.count % self.every:
                return
            kind = self.count // self.every % 5
            moment = int(time.time()) + 2
            if kind in (0, 1):
                self.earliest = time.time() + 1 if kind == 0 else moment
        if kind == 0:
            raise Fault(429, "Too many requests", "1")
        if kind == 1:
            raise Fault(503, "Busy", email.utils.formatdate(moment, usegmt=True))
        if kind == 2:
            raise Fault(50001, "Error in the backend datastore")
        if kind == 3:
            raise Fault(502, "Bad gateway")
        raise ConnectionAbortedError


class Handler(http.server.BaseHTTPRequestHandler):
    protocol_version, wbufsize, disable_nagle_algorithm = "HTTP/1.1", 65536, True

    def subjects(self, deleted):
        names = self.registry.subjects
        return [name for name in names if deleted or not all(gone for _, gone in names[name].values())]

    def visible(self, deleted, name):
        """The visible versions of a subject. Without one, an error."""
        versions = self.registry.subjects.get(name, {})
        found = {number: number_of for number, (number_of, gone) in sorted(versions.items()) if deleted or not gone}
        if not found:
            raise Fault(40401, f"Subject '{name}' not found.")
        return found

    def versions(self, deleted, name):
        return list(self.visible(deleted, name))

    def version(self, deleted, name, number):
        versions = self.visible(deleted, name)
        if not re.fullmatch("latest|[1-9][0-9]{0,8}", number):
            raise Fault(42202, f"The specified version '{number}' is not a valid version id. Allowed values are between "
                               "[1, 2^31-1] and the string \"latest\"")
        number = max(versions) if number == "latest" else int(number)
        if number not in versions:
            raise Fault(40402, f"Version {number} not found.")
        text, members = self.registry.schemas[versions[number]]
        return {"subject": name, "version": number, "id": versions[number], **members, "schema": text}

    def text(self, deleted, name, number):
        return json.loads(self.version(deleted, name, number)["schema"])

    def schema(self, deleted, number):
        text, members = self.registry.schemas[self.existing_id(number)]
        return {**members, "schema": text}

    def existing_id(self, number):
        rows = [row for versions in self.registry.subjects.values() for row in versions.values()]
        if not any(str(row[0]) == number for row in rows):
            raise Fault(40403, f"Schema {number} not found")
        return int(number)

    def all_versions(self, deleted):
        """A page of all versions. Each subject is in the default context or has its context in its name."""
        wanted = self.query.get("subjectPrefix", [""])[0]
        offset, limit = (int(self.query.get(name, [otherwise])[0]) for name, otherwise in (("offset", 0), ("limit", -1)))
        rows = [self.version(deleted, name, str(number)) for name in sorted(self.subjects(deleted))
                for number in self.visible(deleted, name) if wanted == ":*:" or name.startswith(wanted)]
        page = self.options.page if limit < 0 else min(limit, self.options.page)
        return rows[:page] if self.options.ignore_offset else rows[offset:offset + page]

    def requests(self, deleted):
        """The numbers of requests so far, of each kind, and of requests before the time of Retry-After."""
        return {**self.counts, "too soon": self.busy.soon}

    def versions_of(self, deleted, number):
        number = self.existing_id(number)
        return [{"subject": name, "version": version} for name, versions in self.registry.subjects.items()
                for version, (identifier, gone) in versions.items() if identifier == number and (deleted or not gone)]

    def setting(self, visible, own, code, kind):
        def answer(deleted, name=None):
            found = own().get(name) if name else visible()
            if found is None and self.query.get("defaultToGlobal") != ["true"]:
                raise Fault(code, f"Subject '{name}' does not have subject-level {kind} configured")
            return {"mode" if kind == "mode" else "compatibilityLevel": found or visible()}
        return answer

    def look_up(self, deleted, name):
        versions = self.visible(deleted, name)
        schema = json.loads(self.body)["schema"]
        found = [number for number in versions if self.registry.schemas[versions[number]][0] == schema]
        if not found:
            raise Fault(40403, "Schema not found")
        return self.version(deleted, name, str(found[-1]))

    def routes(self):
        registry = self.registry
        config = self.setting(lambda: registry.level, lambda: registry.levels, 40408, "compatibility")
        mode = self.setting(lambda: registry.mode, lambda: registry.modes, 40409, "mode")
        lists = [] if self.options.no_list else [("GET", "/schemas", self.all_versions)]
        return [*lists, ("GET", "/requests", self.requests),
                ("GET", "/subjects", self.subjects), ("GET", "/subjects/([^/]+)/versions", self.versions),
                ("GET", "/subjects/([^/]+)/versions/([^/]+)", self.version),
                ("GET", "/subjects/([^/]+)/versions/([^/]+)/schema", self.text),
                ("GET", "/schemas/ids/([^/]+)", self.schema), ("GET", "/schemas/ids/([^/]+)/versions", self.versions_of),
                ("GET", "/config", config), ("GET", "/config/([^/]+)", config), ("GET", "/mode", mode),
                ("GET", "/mode/([^/]+)", mode), ("GET", "/contexts", lambda deleted: [".", ".other"]),
                ("POST", "/subjects/([^/]+)", self.look_up)]

    def answer(self):
        path, _, query = self.path.partition("?")
        self.query = urllib.parse.parse_qs(query)
        wanted = self.password and "Basic " + base64.b64encode(self.password.encode()).decode()
        if wanted and self.headers["Authorization"] != wanted:
            raise Fault(401, "Unauthorized")
        if path != "/requests":
            self.busy.check()
        for method, pattern, action in self.routes():
            found = re.fullmatch(pattern, path)
            if found and method == self.command:
                self.counts[pattern] = self.counts.get(pattern, 0) + 1
                return action(self.query.get("deleted") == ["true"], *map(urllib.parse.unquote, found.groups()))
        raise Fault(404 if self.command == "GET" else 405, f"HTTP {404 if self.command == 'GET' else 405}")

    def do_GET(self):
        self.body = self.rfile.read(int(self.headers.get("Content-Length", 0)))
        retry_after = None
        try:
            status, value = 200, self.answer()
        except Fault as fault:
            status, value = int(str(fault.code)[:3]), {"error_code": fault.code, "message": str(fault)}
            retry_after = fault.retry_after
        body = json.dumps(value).encode()
        self.send_response(status)
        if retry_after:
            self.send_header("Retry-After", retry_after)
        self.send_header("Content-Type", "application/vnd.schemaregistry.v1+json")
        self.send_header("Content-Length", str(len(body)))
        self.end_headers()
        self.wfile.write(body)

    do_POST = do_PUT = do_DELETE = do_GET

    def handle(self):
        with contextlib.suppress(ConnectionError):  # if the client was killed
            super().handle()

    def log_message(self, *arguments):
        pass


def main():
    parser = argparse.ArgumentParser(description=__doc__, formatter_class=argparse.RawDescriptionHelpFormatter)
    parser.add_argument("port", type=int)
    parser.add_argument("--versions", type=int, default=2000)
    parser.add_argument("--subjects", type=int, default=300)
    parser.add_argument("--seed", type=int, default=1)
    parser.add_argument("--modes", action="store_true", help="the registry is READONLY, and some subjects have their own mode")
    parser.add_argument("--lost-ids", action="store_true", help="some ids have no version any more, or come late")
    parser.add_argument("--foreign", action="store_true", help="add versions and a mode that avroreg doesn't accept")
    parser.add_argument("--twins", action="store_true", help="two ids have schemas that are the same for avroreg")
    parser.add_argument("--password", metavar="USER:PASSWORD", help="require this user and password")
    parser.add_argument("--certificate", metavar="FILE", help="use https, with this file of a certificate and its key")
    parser.add_argument("--first-id", type=int, default=1, help="the first id; at Confluent Cloud it is 100,001")
    parser.add_argument("--busy", metavar="N", type=int, default=0, help="each Nth request fails, and succeeds if repeated")
    parser.add_argument("--page", metavar="N", type=int, default=1000, help="GET /schemas lists at most N versions")
    parser.add_argument("--no-list", action="store_true", help="an older registry: GET /schemas gets 404")
    parser.add_argument("--ignore-offset", action="store_true", help="GET /schemas lists the first page, whatever the offset")
    options = parser.parse_args()
    Handler.registry, Handler.password = Registry(options), options.password
    Handler.options, Handler.busy, Handler.counts = options, Busy(options.busy), {}
    server = http.server.ThreadingHTTPServer(("127.0.0.1", options.port), Handler)
    if options.certificate:
        context = ssl.SSLContext(ssl.PROTOCOL_TLS_SERVER)
        context.load_cert_chain(options.certificate)
        server.socket = context.wrap_socket(server.socket, server_side=True)
    server.serve_forever()


if __name__ == "__main__":
    main()
