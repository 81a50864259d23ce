"""A stand-in for Confluent's registry with the mode IMPORT, as its documentation describes it. It runs in a thread."""

import base64
import http.server
import json
import threading
from urllib.parse import parse_qs, unquote, urlsplit


class Registry:
    """The state: versions by subject and number as [id, schema, is deleted]; levels and modes by subject."""

    def __init__(self, user: str | None = None):
        self.subjects: dict[str, dict[int, list]] = {}
        self.levels, self.modes = {"": "BACKWARD"}, {"": "READWRITE"}
        self.user, self.requests, self.fails = user, 0, lambda method, target: False
        self.server = http.server.ThreadingHTTPServer(("127.0.0.1", 0), self.handler())
        self.url = f"http://127.0.0.1:{self.server.server_port}"
        threading.Thread(target=self.server.serve_forever, daemon=True).start()

    def handler(self):
        state = self

        class Handler(http.server.BaseHTTPRequestHandler):
            def answer(self):
                state.requests += 1
                body = self.rfile.read(int(self.headers.get("Content-Length", 0)))
                if state.fails(self.command, self.path):
                    status, value = 500, {"error_code": 50001}
                elif state.user and self.headers.get("Authorization") != "Basic " + base64.b64encode(state.user.encode()).decode():
                    status, value = 401, {"error_code": 401}
                else:
                    status, value = state.respond(self.command, self.path, json.loads(body or b"null"))
                data = json.dumps(value).encode()
                self.send_response(status)
                self.send_header("Content-Length", str(len(data)))
                self.end_headers()
                self.wfile.write(data)

            do_GET = do_POST = do_PUT = do_DELETE = answer

            def log_message(self, *_):
                pass
        return Handler

    def close(self) -> None:
        self.server.shutdown()
        self.server.server_close()

    def respond(self, method: str, target: str, body) -> tuple[int, object]:
        parts = [unquote(part) for part in urlsplit(target).path.strip("/").split("/")]
        query = {name: values[0] for name, values in parse_qs(urlsplit(target).query).items()}
        has_deleted = query.get("deleted") == "true"
        match method, parts:
            case "GET", ["subjects"]:
                return 200, [name for name, found in self.subjects.items() if has_deleted or not all(version[2] for version in found.values())]
            case "GET", ["subjects", name, "versions"]:
                numbers = [number for number, version in self.subjects.get(name, {}).items() if has_deleted or not version[2]]
                return (200, sorted(numbers)) if numbers else (404, {"error_code": 40401})
            case "GET", ["subjects", name, "versions", number]:
                identifier, schema, _ = self.subjects[name][int(number)]
                return 200, {"subject": name, "version": int(number), "id": identifier, "schema": schema}
            case "POST", ["subjects", name, "versions"]:
                return self.register(name, body)
            case "DELETE", ["subjects", name, "versions", number]:
                self.subjects[name][int(number)][2] = True
                return 200, int(number)
            case ("GET" | "PUT"), [("config" | "mode") as what, *rest]:
                return self.setting(method, what, rest[0] if rest else "", body, query)
        return 404, {"error_code": 404}

    def setting(self, method: str, what: str, name: str, body, query: dict) -> tuple[int, object]:
        values, member = (self.levels, "compatibility") if what == "config" else (self.modes, "mode")
        if method == "GET":
            shown = "compatibilityLevel" if what == "config" else "mode"
            return (200, {shown: values[name]}) if name in values else (404, {"error_code": 40408})
        if body[member] == "IMPORT" and self.subjects and query.get("force") != "true":
            return 422, {"error_code": 42205}
        values[name] = body[member]
        return 200, body

    def register(self, name: str, body) -> tuple[int, object]:
        if self.modes.get(name, self.modes[""]) != "IMPORT":
            return 422, {"error_code": 42205, "message": "not in the mode IMPORT"}
        known = {identifier: schema for found in self.subjects.values() for identifier, schema, _ in found.values()}
        text = json.dumps(json.loads(body["schema"]))
        if known.get(body["id"], text) != text:
            return 422, {"error_code": 42207, "message": "another schema has this id"}
        found = self.subjects.setdefault(name, {})
        if body["version"] in found:
            return 422, {"error_code": 42208, "message": "this version is there"}
        found[body["version"]] = [body["id"], text, False]
        return 200, {"id": body["id"]}
