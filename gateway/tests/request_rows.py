"""Rows about requests: paths, methods, versions and parameters that the gateway changes or rejects."""
from client import FIRST, INCOMPATIBLE, SECOND


def root_is_an_empty_object(client):
    for target in "/", "/?x=y":
        client.check_text("{}", target)
    client.check_refused(404, "POST", "/", {})  # avroreg's own response


def one_slash_at_the_end_is_dropped(client):
    client.check_same({"id": 1}, "POST", "/subjects/orders/versions/", {"schema": FIRST})
    client.check_same({"id": 2}, "POST", "/subjects/orders/versions", {"schema": SECOND})
    client.check_same(["orders"], "GET", "/subjects/")
    client.check_same([1, 2], "GET", "/subjects/orders/versions/")
    client.check_same(["AVRO"], "GET", "/schemas/types/")
    client.check_same({"compatibilityLevel": "BACKWARD"}, "GET", "/config/")
    check = "/compatibility/subjects/orders/versions/"
    client.check_same({"is_compatible": True}, "POST", check, {"schema": FIRST})
    client.check_same({"is_compatible": True}, "POST", f"{check}latest/?normalize=false&verbose=false", {"schema": SECOND})
    assert client.check_passed("POST", "/subjects/orders/", {"schema": FIRST}).json()["version"] == 1
    for target in "/subjects//", "/subjects//versions", "//subjects", "/subjects/orders//versions":
        client.check_refused(404, "GET", target)
    client.check_same(["orders"], "GET", "/subjects?x=/")


def a_slash_in_a_subject_stays(client):
    client.check_same({"compatibility": "FULL"}, "PUT", "/config/a%2Fb/", {"compatibility": "FULL"})  # the subject a/b, not a
    client.registry.check_same({"compatibilityLevel": "FULL"}, "GET", "/config/a%2Fb")
    client.check_same({"compatibilityLevel": "FULL"}, "GET", "/config/a%2Fb")
    client.check_refused(40408, "GET", "/config/a/")


def head_has_no_body(client):
    for target in "/", "/config", "/subjects", "/subjects/orders/versions/-1", "/schemas/ids/1", "/schemas/ids/1/schema", "/contexts":
        head, get = client.ask("HEAD", target), client.check_passed("GET", target)
        assert head.status == 200 and head.body == b"", (target, head)
        assert head.fields["Content-Length"] == str(len(get.body)), (target, head)
    assert client.ask("HEAD", "/subjects/none/versions").status == 404
    # on a kept connection, the next response follows the head at once
    requests = [f"HEAD {target} HTTP/1.1\r\nHost: localhost\r\n\r\n" for target in ("/config", "/")]
    got = client.send_bytes("".join(requests).encode() + b"GET /schemas/types HTTP/1.1\r\nHost: localhost\r\nConnection: close\r\n\r\n")
    heads = got.split(b"\r\n\r\n")
    assert [head[:12] for head in heads[:3]] == [b"HTTP/1.1 200"] * 3 and heads[3] == b'["AVRO"]', got


def version_minus_one_is_latest(client):
    latest = client.registry.get("/subjects/orders/versions/latest")
    client.check_same(latest, "GET", "/subjects/orders/versions/-1")
    client.check_same(latest, "GET", "/subjects/orders/versions/-1/?deleted=false")
    client.check_text(latest["schema"], "/subjects/orders/versions/-1/schema")
    client.check_same({"is_compatible": False}, "POST", "/compatibility/subjects/orders/versions/-1", {"schema": INCOMPATIBLE})
    for version in "-2", "--1", "-1x", "-01", "%2D1":
        client.check_refused(42202, "GET", f"/subjects/orders/versions/{version}")
    client.check_refused(40401, "GET", "/subjects/-1/versions/-1")
    client.check_same({"id": 1}, "POST", "/subjects/short/versions", {"schema": FIRST})
    key = {"Registry-Retry-Key": "minus-one"}
    client.check_same(1, "DELETE", "/subjects/short/versions/-1", None, key)
    client.check_same(1, "DELETE", "/subjects/short/versions/latest", None, key)  # one command, one key
    client.check_same([1], "DELETE", "/subjects/short?permanent=true")


def parameters_without_a_meaning_are_rejected(client):
    check = "/compatibility/subjects/orders/versions"
    for target in ("/subjects?subjectprefix=x", "/config?subjectPrefix=x", "/subjects?%73ubjectPrefix=x", "/config?limit=3",
                   "/subjects?limit=1&%6Fffset=1", "/subjects?offset=1&verbose=true", "/contexts?subjectPrefix=x", "/schemas?deletedOnly=true",
                   "/subjects?limit=1&Offset=4", "/subjects/orders/versions?limit=1&latestOnly=true", "/schemas/ids/1/schema?limit=1",
                   "/schemas/ids/1/versions?limit=x", "/subjects?offset=1e3&limit=1", "/subjects?deletedOnly=maybe"):
        client.check_refused(422, "GET", target)
    for target in f"{check}?Verbose=true", f"{check}?%76erbose=true", f"{check}?verbose=true&limit=1":
        client.check_refused(422, "POST", target, {"schema": FIRST})
    client.check_refused(422, "DELETE", "/subjects/orders?deletedOnly=true")
    client.check_refused(422, "POST", "/subjects/orders/versions?verbose=true", {"schema": FIRST})


def internal_locations_are_hidden(client):
    for target in ("/.gateway", "/.gateway/read", "/.gateway/schemas", "/.gateway/check", "/.registry/read?/config", "/.registry/read",
                   "/.registry/check?/config", "/.changed", "/.write", "/.nothing", "/.error/400", "/%2egateway/read", "/x/../.gateway/read"):
        for method in "GET", "POST":
            response = client.ask(method, target, b"{}" if method == "POST" else None)
            assert response.status == 404, (method, target, response)


def writes_are_unchanged_or_refused(client):
    key, versions = {"Registry-Retry-Key": "write-1"}, "/subjects/written/versions"
    first = client.check_passed("POST", versions, {"schema": FIRST}, key)
    again = client.registry.check_passed("POST", versions, {"schema": FIRST}, key)
    assert first.body == again.body, (first, again)
    client.check_refused(422, "POST", f"{versions}/", {"schema": SECOND, "ruleSet": {"domainRules": [{"name": "encrypt"}]}})
    client.check_refused(42205, "POST", versions, {"schema": SECOND, "id": 7})
    client.check_refused(422, "PUT", "/config/written/", {"compatibility": "FULL", "alias": "x"})
    client.check_same({"compatibility": "FULL"}, "PUT", "/config/written/", {"compatibility": "FULL", "normalize": True, "alias": ""})
    client.check_refused(40001, "POST", versions, b"{")
    client.check_refused(42203, "PUT", "/config", {"compatibility": "full"})
    client.check_refused(413, "POST", versions, b" " * 1048577)
    client.registry.check_same([1], "GET", versions)
    for target in "/config", "/config/written", "/mode", "/mode/written":
        client.check_refused(405, "DELETE", target)
    for target in "/v1/metadata/id", "/v1/metadata/version":
        client.check_refused(404, "GET", target)
    client.check_refused(42204, "PUT", "/mode", {"mode": "IMPORT"})


ROWS = [root_is_an_empty_object, one_slash_at_the_end_is_dropped, a_slash_in_a_subject_stays, head_has_no_body, version_minus_one_is_latest,
        parameters_without_a_meaning_are_rejected, internal_locations_are_hidden, writes_are_unchanged_or_refused]
