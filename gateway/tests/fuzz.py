#!/usr/bin/env python3
"""Sends many odd messages for the gateway's routes, and checks each message that avroreg would get.

    PYTHONPATH=examples/nginx python3 gateway/tests/fuzz.py UPSTREAM_PORT NGINX_PORT COUNT

This script listens on UPSTREAM_PORT instead of avroreg, responds like it, and records each message. The user may only read. The
odd messages are those of bypass.py for the gateway's routes, targets with odd bytes, and random changes of both. Status 1 if avroreg
would get something other than a read, bytes that nobody meant, or another subject or id than the client's target has.
"""
import collections
import json
import random
import re
import sys

import bypass
import recorder

ROUTES = [("GET", "/subjects/other/versions/-1"), ("GET", "/schemas/ids/7/schema"), ("GET", "/schemas/ids/7/subjects?deleted=true"),
          ("GET", "/subjects/other/versions?deletedOnly=true&limit=2"), ("GET", "/subjects?subjectPrefix=ot&offset=0"),
          ("GET", "/subjects/other/versions/1/referencedby"), ("GET", "/schemas?subjectPrefix=o"), ("GET", "/"), ("GET", "/contexts/"),
          ("POST", "/compatibility/subjects/other/versions?verbose=true"), ("POST", "/compatibility/subjects/other/versions/2/?verbose=true"),
          ("HEAD", "/schemas/ids/7/schema"), ("GET", "/schemas/ids/7/versions?limit=1")]
ODD = (b"\xc3\xbc", b"\xff\xfe", b"\xed\xa0\x80", b"%", b"%zz", b"%25", b"%2525", b"{", b"'", b"\"", b"`", b"${args}", b"$args", b"\\", b"|",
       b"^", b"%0d%0aX:%20y", b"%00", b";", b"@evil", b":80", b"=", b"&", b"%3f", b"%26")
NAMES = ["a/b", "other", "\u00fc x", "team-a.x", "q\"uo'te", "..", ".", "%41"]
USES = [{"subject": "a/b", "version": 1}, {"subject": "other", "version": 1}]


def response_to(method, target):
    """The JSON that avroreg would send, roughly."""
    path = target.partition(b"?")[0]
    if method == b"POST":
        return {"is_compatible": False}
    for ending, found in (("/subjects", NAMES), ("/versions", USES if b"/ids/" in path else [1, 2, 3])):
        if path.endswith(ending.encode()):
            return found
    if path.startswith(b"/config"):
        return {"compatibilityLevel": "FULL_TRANSITIVE"}
    if path.startswith(b"/schemas/ids"):
        return {"schema": "\"int\""}
    return {"id": 7, "schema": "\"string\"", "subject": "other", "version": 2}


class Recorder(recorder.Recorder):
    """A recorder whose responses the gateway can use."""

    def response_to(self, head):
        return json.dumps(response_to(*head.split(b" ")[:2])).encode()


def fault_of(message):
    """What is wrong with a message to avroreg, or None."""
    if not (found := re.fullmatch(rb"(GET|POST) (/[^\x00-\x20]*) HTTP/1\.1", message.line())):
        return "it isn't a read's request line"
    if fault := message.fault():
        return fault
    if found[1] == b"POST" and not re.match(rb"/compatibility/subjects/[^/?]+/versions(/[^/?]+)?(\?|$)|/subjects/[^/?]+(\?|$)", found[2]):
        return "it is a write"
    return None


def odd_targets(target):
    """Targets with raw bytes: UTF-8 and what isn't UTF-8, quotes, braces, percent signs without digits, escapes of escapes."""
    path, mark, query = target.encode().partition(b"?")
    for odd in ODD:
        for at in (len(path), path.rfind(b"/"), path.find(b"other"), path.find(b"7")):
            if at > 0:
                yield path[:at] + odd + path[at:] + mark + query
        if mark:
            yield path + b"?" + query + odd
            yield path + b"?" + odd + b"=x&" + query
            yield path + b"?" + query.replace(b"=", b"=" + odd, 1)


def changed(message, chance):
    """The message with one or two random changes, most of them in its target."""
    for _ in range(chance.randint(1, 2)):
        begin = message.find(b" ") + 1
        end = message.find(b" HTTP/1.1") if chance.random() < 0.9 else message.find(b"\r\n\r\n")
        at = chance.randrange(begin, max(end, begin + 1))
        odd = chance.choice((*ODD, b"/", b"//", b"/../", b"?", b"-1", b"/-1", b"/", b"&verbose=true", b"&limit=1", bytes([chance.randrange(33, 256)])))
        message = message[:at] + odd + message[at + chance.randrange(2):]
    return message


def odd_messages(count):
    """Messages of the user `viewer` for the gateway's routes."""
    user, chance, found = bypass.USERS["viewer"], random.Random(11), {}
    for method, target in ROUTES:
        found.update(dict.fromkeys(bypass.messages(user, method, target)))
        found.update((method.encode() + b" " + odd + b" HTTP/1.1\r\n" + bypass.rest_of_request(user), None) for odd in odd_targets(target))
    first = list(found)
    while len(found) < count:
        found[changed(chance.choice(first), chance)] = None
    return list(found)[:count]


def name_in(target):
    """The subject or id of a target, or None."""
    parts = target.partition(b"?")[0].split(b"/")
    if len(parts) < 4 or parts[1] not in (b"subjects", b"schemas", b"compatibility"):
        return None
    return parts[2] if parts[1] == b"subjects" else parts[3]


def check_names(port, server):
    """Sends one message at a time. Returns the wrong messages to avroreg, and their number in all. A message is wrong if its subject or
    id isn't the client's, or if the gateway's own read has the client's body."""
    wrong, count = [], 0
    for method, target in ROUTES:
        for odd in odd_targets(target):
            if (wanted := name_in(odd)) is None:
                continue
            server.take_messages()
            recorder.send(port, method.encode() + b" " + odd + b" HTTP/1.1\r\n" + bypass.rest_of_request(bypass.USERS["viewer"]))
            for head, body, _ in server.take_messages():
                count += 1
                found = head.split(b" ")[1]
                if not found.startswith(b"/config/") and name_in(found) != wanted:  # the level of the same subject is read too
                    wrong.append((odd, f"{wanted!r} became {found!r}"))
                if method == "POST" and head.startswith(b"GET ") and body:
                    wrong.append((odd, f"a read has the client's body: {found!r}"))
    return wrong, count


def main():
    upstream, port, count = map(int, sys.argv[1:])
    server, messages = Recorder(upstream), odd_messages(count)
    statuses = collections.Counter()
    forwarded = [message for recorded in recorder.send_all(port, messages, server, statuses) for message in recorded]
    wrong = [(message.line(), fault) for message in forwarded if (fault := fault_of(message))]
    others, named = check_names(port, server)
    print(f"{len(messages)} messages, {len(forwarded)} to avroreg, {len(wrong)} of them wrong; statuses {dict(statuses.most_common(8))}")
    print(f"{named} messages to avroreg for odd subjects and ids, {len(others)} of them wrong")
    for each in (wrong + others)[:10]:
        print("wrong:", *each)
    return 1 if wrong or others or len(forwarded) < count / 5 else 0


if __name__ == "__main__":
    sys.exit(main())
