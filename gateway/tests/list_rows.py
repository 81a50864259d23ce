"""Rows about lists and about schemas by id. They go on with the registry of request_rows.py."""
import json
import threading
import time
import urllib.parse

from client import FIRST


def text_of_an_id(client):
    nasty = json.dumps({"type": "enum", "name": "E", "symbols": ["A"], "doc": "\u00e9 \u2028 \U0001f600 \" \\ \u0001 </x>"})
    number = client.check_passed("POST", "/subjects/nasty/versions", {"schema": nasty}).json()["id"]
    for each in 1, 2, number:
        client.check_text(client.registry.get(f"/schemas/ids/{each}")["schema"], f"/schemas/ids/{each}/schema")
    same = client.registry.check_passed("GET", "/subjects/nasty/versions/1/schema").body.decode()
    client.check_text(same, f"/schemas/ids/{number}/schema?subject=x&format=resolved")
    for each in "999", "0", "x", "-1":
        client.check_refused(40403, "GET", f"/schemas/ids/{each}/schema")


def text_of_an_id_of_a_mebibyte(client):
    for name, doc in ("L", "x" * 1048400), ("Q", "\"" * 262000):  # the second one's response has four bytes for each quote
        text = json.dumps({"type": "enum", "name": name, "symbols": [], "doc": doc})
        number = client.check_passed("POST", f"/subjects/large-{name}/versions", {"schema": text}).json()["id"]
        assert json.loads(client.check_passed("GET", f"/schemas/ids/{number}/schema").body)["doc"] == doc


def subjects_of_an_id(client):
    for subject in "b-orders", "a-orders":
        client.check_same({"id": 1}, "POST", f"/subjects/{subject}/versions", {"schema": FIRST})
    client.check_same(1, "DELETE", "/subjects/a-orders/versions/1")
    client.check_same({"id": 1}, "POST", "/subjects/a-orders/versions", {"schema": FIRST})  # now two versions have the id
    client.check_same(["a-orders", "b-orders", "orders", "written"], "GET", "/schemas/ids/1/subjects")
    client.check_same([1], "DELETE", "/subjects/b-orders")
    client.check_same(["a-orders", "orders", "written"], "GET", "/schemas/ids/1/subjects")
    client.check_same(["a-orders", "b-orders", "orders", "written"], "GET", "/schemas/ids/1/subjects?deleted=true")
    client.check_same(["b-orders"], "GET", "/schemas/ids/1/subjects?deleted=true&offset=1&limit=1")
    client.check_refused(40403, "GET", "/schemas/ids/999/subjects")


def versions_of_an_id_by_pages(client):
    every = client.registry.get("/schemas/ids/1/versions?deleted=true")
    assert len(every) == 5, every
    client.check_pages(every, "/schemas/ids/1/versions?deleted=true", (1, 2, 3, 5, 6))
    client.check_same(every, "GET", "/schemas/ids/1/versions?deleted=true&limit=-1&offset=0")


def nothing_is_referenced(client):
    for version in "1", "2", "latest", "-1":
        client.check_same([], "GET", f"/subjects/orders/versions/{version}/referencedby")
    client.check_same([], "GET", "/subjects/b-orders/versions/1/referencedby")  # soft-deleted
    client.check_refused(40402, "GET", "/subjects/orders/versions/9/referencedby")
    client.check_refused(40401, "GET", "/subjects/none/versions/1/referencedby")
    client.check_refused(42202, "GET", "/subjects/orders/versions/01/referencedby")


def one_context(client):
    client.check_same(["."], "GET", "/contexts")
    client.check_same([], "GET", "/contexts?offset=1")


def subjects_by_prefix(client):
    names = client.registry.get("/subjects")
    for prefix in "o", "a-", "", "zzz", "orders", "orders-":
        client.check_same([name for name in names if name.startswith(prefix)], "GET", f"/subjects?subjectPrefix={prefix}")
    for query in ("subjectPrefix=%61%2D", "deleted=false&subjectPrefix=a-&deletedOnly=false", "subjectPrefix=:*:a-", "subjectPrefix=%3A.%3Aa-"):
        client.check_same(["a-orders"], "GET", f"/subjects?{query}")
    client.check_same(names, "GET", "/subjects?subjectPrefix=:*:&deleted=false")
    client.check_same(["b-orders"], "GET", "/subjects?subjectPrefix=b-&deleted=true")
    client.check_same([], "GET", "/subjects?subjectPrefix=:.other:")
    client.check_same({"id": 1}, "POST", "/subjects/%C3%BC%20x%2Fy+z/versions", {"schema": FIRST})
    client.check_same(["\u00fc x/y+z"], "GET", "/subjects?subjectPrefix=%C3%BC+x%2Fy%2B")
    client.check_refused(40001, "GET", "/subjects?subjectPrefix=%FF")


def subjects_by_pages(client):
    every = client.registry.get("/subjects?deleted=true")
    client.check_pages(every, "/subjects?deleted=true", (1, 3, 100))
    # the same requests to avroreg itself never end: each page is the whole list
    assert client.registry.get("/subjects?deleted=true&offset=100000&limit=1") == every


def deleted_only(client):
    for query in "deletedOnly=true", "deletedOnly=TRUE&deleted=true":
        client.check_same(["b-orders"], "GET", f"/subjects?{query}")
    client.check_same([1], "DELETE", "/subjects/b-orders?permanent=true")
    client.check_same([], "GET", "/subjects?deletedOnly=true")
    client.check_same(1, "DELETE", "/subjects/orders/versions/1")
    client.check_same([1], "GET", "/subjects/orders/versions?deletedOnly=true")
    client.check_same([], "GET", "/subjects?deletedOnly=true")  # a version is live
    client.check_same([2], "GET", "/subjects/orders/versions?deletedOnly=false")
    client.check_same([2], "GET", "/subjects/orders/versions?deleted=true&offset=1&limit=5")
    client.check_same([2], "DELETE", "/subjects/orders")
    client.check_same([1, 2], "GET", "/subjects/orders/versions?deletedOnly=true")
    client.check_refused(40401, "GET", "/subjects/written/versions?deletedOnly=true")
    client.check_refused(40401, "GET", "/subjects/none/versions?deletedOnly=true")


def all_schemas(client):
    wanted = []
    for subject in client.registry.get("/subjects"):
        path = f"/subjects/{urllib.parse.quote(subject, safe='')}/versions"
        wanted += [client.registry.get(f"{path}/{version}") for version in client.registry.get(path)]
    client.check_same(wanted, "GET", "/schemas")
    client.check_pages(wanted, "/schemas?deleted=false", (2, 1000))
    client.check_same([each for each in wanted if each["subject"] == "nasty"], "GET", "/schemas?subjectPrefix=na")
    deleted = client.get("/schemas?deleted=true&subjectPrefix=orders")
    assert [(each["subject"], each["version"]) for each in deleted] == [("orders", 1), ("orders", 2)], deleted
    client.check_same([deleted[1]], "GET", "/schemas?deleted=true&latestOnly=true&subjectPrefix=orders")
    client.check_same([], "GET", "/schemas?subjectPrefix=orders")


def flip(client, name, stop):
    """Registers and deletes a subject until the end."""
    while not stop.is_set():
        client.ask("POST", f"/subjects/{name}/versions", {"schema": FIRST})
        client.ask("DELETE", f"/subjects/{name}")


def lists_during_writes(client):
    """Two clients register and delete. Subjects that stay live or deleted are listed right meanwhile."""
    for name in "still", "gone":
        client.check_same({"id": 1}, "POST", f"/subjects/{name}/versions", {"schema": FIRST})
    client.check_same([1], "DELETE", "/subjects/gone")
    stop, count, end = threading.Event(), 0, time.monotonic() + 4
    threads = [threading.Thread(target=flip, args=(client.registry, f"flip{at}", stop)) for at in range(2)]
    for thread in threads:
        thread.start()
    try:
        while time.monotonic() < end:
            deleted = client.get("/subjects?deletedOnly=true")
            assert "gone" in deleted and "still" not in deleted, deleted
            listed = {each["subject"] for each in client.get("/schemas?latestOnly=true")}
            assert "still" in listed and "gone" not in listed, listed
            count += 1
    finally:
        stop.set()
        for thread in threads:
            thread.join()
    return f"{count} lists"


ROWS = [text_of_an_id, text_of_an_id_of_a_mebibyte, subjects_of_an_id, versions_of_an_id_by_pages, nothing_is_referenced, one_context,
        subjects_by_prefix, subjects_by_pages, deleted_only, all_schemas, lists_during_writes]
