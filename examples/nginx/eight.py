#!/usr/bin/env python3
"""Runs eight clients at once. Each registers, reads, checks and deletes at a steady rate on one kept connection, and checks
every response.

    python3 examples/nginx/eight.py PORT SECONDS [RATE]     RATE: requests a second and client, by default 20

At the end, each subject's versions must be numbered without a gap. Each schema must have one id, and the ids must be 1 to
the number of schemas. A request is lost if it gets no response, or a wrong one. The server must be new.
"""
import http.client
import json
import random
import sys
import threading
import time

CLIENTS = 8
VERSIONS = 40  # of a subject, before a client takes the next one
KEY = "Registry-Retry-Key"


def compact(value):
    return json.dumps(value, separators=(",", ":"), sort_keys=True)


def record(name, fields, required=False):
    """The identity text of a record. If `required`, it has a last field without a default."""
    members = [{"default": 0, "name": f"f{at}", "type": "long"} for at in range(fields)]
    if required:
        members.append({"name": "last", "type": "long"})
    return compact({"fields": members, "name": name, "type": "record"})


INCOMPATIBLE = (409, compact({"error_code": 409, "message": "Schema is incompatible with an earlier version"}))


class Known:
    """The shared knowledge of all clients: the id of each schema, and the schemas of the shared subjects."""

    def __init__(self):
        self.lock, self.ids, self.texts, self.shared, self.subjects = threading.Lock(), {}, {}, {}, {}

    def learn(self, text, number):
        with self.lock:
            assert self.ids.setdefault(text, number) == number, (text, number, self.ids[text])
            assert self.texts.setdefault(number, text) == text, (number, text, self.texts[number])

    def share(self, client, count):
        """A shared subject, and the next schema for it. All clients register schemas in these subjects in turn."""
        with self.lock:
            place = f"shared-{len(self.shared) // 200}"
            text = compact({"fields": [{"default": 0, "name": f"f{client}x{count}", "type": "long"}],
                            "name": "Shared", "type": "record"})
            self.shared[text] = place
            return place, text


class Client(threading.Thread):
    def __init__(self, port, number, seconds, rate, known):
        super().__init__()
        self.connection = http.client.HTTPConnection("127.0.0.1", port, timeout=120)
        self.number, self.seconds, self.rate, self.known = number, seconds, rate, known
        self.times, self.fault, self.random = [], None, random.Random(number)

    def ask(self, method, path, body=None, key=None):
        """Waits for the request's turn, and sends it. Returns the status and the body of the response."""
        time.sleep(max(0, self.due - time.monotonic()))
        self.due = max(self.due + 1 / self.rate, time.monotonic() - 1)
        began = time.monotonic()
        self.connection.request(method, path, body and compact(body), {KEY: key} if key else {})
        answer = self.connection.getresponse()
        body = answer.read().decode()
        self.times.append(time.monotonic() - began)
        return answer.status, body

    def check_response(self, wanted, *request, **more):
        found = self.ask(*request, **more)
        assert found == wanted, f"{request}: wanted {wanted}, found {found}"

    def is_out_of_time(self):
        return time.monotonic() > self.end

    def register(self, subject, text, key=None):
        status, body = self.ask("POST", f"/subjects/{subject}/versions", {"schema": text}, key)
        assert status == 200, (status, body)
        number = json.loads(body)["id"]
        assert body == compact({"id": number}), body
        self.known.learn(text, number)
        return number

    def use_version(self, subject, name, at, live):
        """Registers, reads and checks one version, and deletes every fifth one. Only this client writes to the subject."""
        text = record(name, at)
        number = self.register(subject, text, f"{subject}-{at}")
        shown = (200, compact({"id": number, "schema": text, "subject": subject, "version": at}))
        live.append(at)
        path, body = f"/subjects/{subject}/versions", {"schema": text}
        self.check_response(shown, "GET", f"{path}/latest")
        self.check_response((200, compact({"schema": text})), "GET", f"/schemas/ids/{number}")
        self.check_response(shown, "POST", f"/subjects/{subject}", body)
        self.check_response((200, compact({"id": number})), "POST", path, body, f"{subject}-{at}")
        self.check_response((200, compact(live)), "GET", path)
        self.check_response(INCOMPATIBLE, "POST", path, {"schema": record(name, at, True)})
        self.check_response((200, compact({"is_compatible": True})), "POST", f"/compatibility{path}/latest",
                  {"schema": text})
        with self.known.lock:
            other, text = self.random.choice(list(self.known.texts.items()))
        self.check_response((200, compact({"schema": text})), "GET", f"/schemas/ids/{other}")
        if at % 5 == 2:
            for _ in range(2):
                self.check_response((200, str(at)), "DELETE", f"{path}/{at}", key=f"{subject}-{at}-gone")
            live.remove(at)

    def work(self):
        count = 0
        while not self.is_out_of_time():
            count += 1
            subject, live, at = f"own-{self.number}-{count}", [], 0
            name = f"R{self.number}x{count}" if count % 4 else "Common"
            self.check_response((200, compact({"compatibility": "BACKWARD"})), "PUT", f"/config/{subject}",
                      {"compatibility": "BACKWARD"})
            while at < VERSIONS and not self.is_out_of_time():
                at += 1
                self.use_version(subject, name, at, live)
                with self.known.lock:
                    self.known.subjects[subject] = (at, list(live))
                place, text = self.known.share(self.number, count * VERSIONS + at)
                self.register(place, text)

    def run(self):
        self.due = time.monotonic() + self.number / CLIENTS / self.rate
        self.end = self.due + self.seconds
        try:
            self.work()
        except Exception as fault:  # any exception of a client is a fault of the run
            self.fault = fault


def check(port, known):
    """Reads all subjects, versions and ids, and checks them. Returns their numbers, and the number of reads."""
    client = Client(port, 0, 0, 500, known)
    client.due = time.monotonic()
    count = 0
    for subject, (versions, live) in known.subjects.items():
        client.check_response((200, compact(list(range(1, versions + 1)))), "GET", f"/subjects/{subject}/versions?deleted=true")
        client.check_response((200, compact(live)), "GET", f"/subjects/{subject}/versions")
        count += versions
    for place in sorted(set(known.shared.values())):
        texts = [text for text, other in known.shared.items() if other == place]
        client.check_response((200, compact(list(range(1, len(texts) + 1)))), "GET", f"/subjects/{place}/versions")
        found = []
        for at in range(1, len(texts) + 1):
            status, body = client.ask("GET", f"/subjects/{place}/versions/{at}")
            assert status == 200, body
            shown = json.loads(body)
            assert known.ids[shown["schema"]] == shown["id"], body
            found.append(shown["schema"])
        assert sorted(found) == sorted(texts), place
        count += len(texts)
    assert sorted(known.texts) == list(range(1, len(known.texts) + 1))
    for number, text in known.texts.items():
        client.check_response((200, compact({"schema": text})), "GET", f"/schemas/ids/{number}")
    return len(known.subjects) + len(set(known.shared.values())), count, len(known.texts), len(client.times)


def main():
    port, seconds = int(sys.argv[1]), float(sys.argv[2])
    rate = float(sys.argv[3]) if len(sys.argv) > 3 else 20
    known = Known()
    clients = [Client(port, number, seconds, rate, known) for number in range(CLIENTS)]
    began = time.monotonic()
    for client in clients:
        client.start()
    for client in clients:
        client.join()
    took = time.monotonic() - began
    faults = [(client.number, client.fault) for client in clients if client.fault]
    assert not faults, faults
    times = sorted(time for client in clients for time in client.times)
    subjects, versions, ids, reads = check(port, known)
    print(f"{CLIENTS} clients, {took:.0f} s: {len(times)} requests, none lost; {len(times) / took:.0f} a second; "
          f"half within {times[len(times) // 2] * 1000:.1f} ms, 99 of 100 within "
          f"{times[len(times) * 99 // 100] * 1000:.1f} ms, all within {times[-1] * 1000:.0f} ms")
    print(f"{subjects} subjects, {versions} versions, {ids} ids: each number and id is right ({reads} reads)")
    print(f"requests: {len(times) + reads}")


if __name__ == "__main__":
    main()
