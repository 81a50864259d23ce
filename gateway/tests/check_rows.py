"""Rows about compatibility checks with messages."""
import json

import random_schemas
from client import FIRST, INCOMPATIBLE, SECOND, field, record

CHECK = "/compatibility/subjects/checked/versions"


def check_messages(client, target, schema):
    """Sends a check. There are messages exactly if avroreg refuses the schema."""
    found = client.check_passed("POST", target, {"schema": schema}).json()
    assert found["is_compatible"] == (not found["messages"]), found
    return found


def a_check_has_messages(client):
    for schema in FIRST, SECOND:
        client.check_passed("POST", "/subjects/checked/versions", {"schema": schema})
    compatible = {"is_compatible": True, "messages": []}
    client.check_same(compatible, "POST", f"{CHECK}?verbose=true", {"schema": SECOND})
    client.check_same(compatible, "POST", "/compatibility/subjects/new/versions?verbose=true", {"schema": INCOMPATIBLE})
    for target in (f"{CHECK}?verbose=true", f"{CHECK}/?verbose=true", f"{CHECK}/latest?normalize=false&verbose=TRUE", f"{CHECK}/-1?verbose=true",
                   f"{CHECK}/2?verbose", f"{CHECK}?verbose=false&verbose=true"):
        found = check_messages(client, target, INCOMPATIBLE)
        assert not found["is_compatible"] and found["messages"][0] == (
            "{errorType:'READER_FIELD_MISSING_DEFAULT_VALUE', description:'The field 'total' at path '/fields/2' in the new schema has no "
            "default value and is missing in the old schema', additionalInfo:'total'}"), found
        assert "{oldSchemaVersion: 2}" in found["messages"] and "{compatibility: 'BACKWARD'}" in found["messages"], found
    client.check_same({"is_compatible": False}, "POST", f"{CHECK}?verbose=false", {"schema": INCOMPATIBLE})
    client.check_same({"is_compatible": False}, "POST", CHECK, {"schema": INCOMPATIBLE})


def each_refusing_version_is_named(client):
    client.check_passed("PUT", "/config/checked", {"compatibility": "FULL_TRANSITIVE"})
    found = check_messages(client, f"{CHECK}?verbose=true", record("Order", field("id", "string")))
    named = [message for message in found["messages"] if "Version" in message]
    assert named == ["{oldSchemaVersion: 2}", "{oldSchemaVersion: 1}"], found


def a_refused_check_stays_refused(client):
    target = f"{CHECK}?verbose=true"
    client.check_refused(42201, "POST", target, {"schema": "nonsense"})
    client.check_refused(42201, "POST", target, {"schema": FIRST, "schemaType": "JSON"})
    client.check_refused(40001, "POST", target, b"{")
    client.check_refused(40401, "POST", "/compatibility/subjects/none/versions/1?verbose=true", {"schema": FIRST})
    client.check_refused(40402, "POST", f"{CHECK}/7?verbose=true", {"schema": FIRST})
    client.check_refused(42202, "POST", f"{CHECK}/0?verbose=true", {"schema": FIRST})
    client.check_refused(413, "POST", target, b" " * 1048577)
    chunks = b"a\r\n{\"schema\":\r\n9\r\n\"\\\"int\\\"\"\r\n1\r\n}\r\n0\r\n\r\n"
    head = f"POST {target} HTTP/1.1\r\nHost: localhost\r\nConnection: close\r\nTransfer-Encoding: chunked\r\n\r\n".encode()
    assert client.send_bytes(head + chunks).startswith(b"HTTP/1.1 200"), "a chunked body"


INNER = {"type": "record", "name": "I", "fields": [field("a")]}
EMPTY = {"type": "record", "name": "I", "fields": []}
PAIRS = [  # the reader, the writer, the reason
    ('"int"', '"long"', "TYPE_MISMATCH"),
    ('{"type":"fixed","name":"F","size":3}', '{"type":"fixed","name":"F","size":2}', "FIXED_SIZE_MISMATCH"),
    ('{"type":"enum","name":"E","symbols":["A"]}', '{"type":"enum","name":"E","symbols":["A","B"]}', "MISSING_ENUM_SYMBOLS"),
    ('{"type":"fixed","name":"F","size":3}', '{"type":"fixed","name":"G","size":3}', "NAME_MISMATCH"),
    ('["null","string"]', '["null","string","int"]', "MISSING_UNION_BRANCH"),
    (record("R", field("x", ["null", INNER])), record("R", field("x", ["null", EMPTY])), "READER_FIELD_MISSING_DEFAULT_VALUE"),
    ('{"type":"array","items":"int"}', '{"type":"array","items":"string"}', "TYPE_MISMATCH"),
    ('{"type":"record","name":"R","namespace":"n","fields":[{"name":"x","type":{"type":"enum","name":"E","symbols":[]}},'
     '{"name":"y","type":"E"},{"name":"z","type":"n.E"}]}',
     '{"type":"record","name":"m.R","fields":[{"name":"x","type":{"type":"enum","name":"E","symbols":["A"]}},{"name":"y","type":"E"}]}',
     "MISSING_ENUM_SYMBOLS"),
    (record("T", field("next", ["null", "T"]), field("v", "int")), record("T", field("next", ["null", "T"]), field("v", "string")), "TYPE_MISMATCH"),
    (record("R", field("b", "string", aliases=["a"])), record("R", field("a", "int")), "TYPE_MISMATCH"),
    (record("READER", field("WRITER")), record("READER"), "The field 'WRITER' at path '/fields/0' in the new schema"),
]


def each_reason_is_named(client):
    for at, (reader, writer, wanted) in enumerate(PAIRS):
        client.check_passed("POST", f"/subjects/pair{at}/versions", {"schema": writer})
        found = check_messages(client, f"/compatibility/subjects/pair{at}/versions?verbose=true", reader)
        assert not found["is_compatible"] and wanted in found["messages"][0], (reader, writer, found)
    client.check_passed("PUT", "/config/pair2", {"compatibility": "FORWARD"})  # the old schema is the reader
    found = check_messages(client, "/compatibility/subjects/pair2/versions?verbose=true", '{"type":"enum","name":"E","symbols":["A","B","C"]}')
    assert "The old schema is missing enum symbols '[C]' at path '/symbols' in the new schema" in found["messages"][0], found


def deep_schemas_get_a_general_message(client):
    """njs can't parse a schema nested so deeply. The verdict and the version are there nevertheless."""
    deep = [leaf for leaf in ("int", "string")]
    for at in range(11):
        deep = [{"type": "record", "name": f"N{at}", "fields": [field("f", ["null", each])]} for each in deep]
    client.check_passed("POST", "/subjects/deep/versions", {"schema": json.dumps(deep[0])})
    found = check_messages(client, "/compatibility/subjects/deep/versions?verbose=true", json.dumps(deep[1]))
    assert not found["is_compatible"] and found["messages"][0].startswith("{errorType:'INCOMPATIBLE'"), found
    assert "{oldSchemaVersion: 1}" in found["messages"], found


def reason_of_pair(client, old, new):
    """Registers the old schema and checks the new one. Returns the response, or None if avroreg accepts one of them not at all."""
    client.registry.ask("PUT", "/config/random", {"compatibility": "NONE"})
    if client.registry.ask("POST", "/subjects/random/versions", {"schema": old}).status != 200:
        return None
    client.registry.ask("PUT", "/config/random", {"compatibility": "BACKWARD"})
    response = client.ask("POST", "/compatibility/subjects/random/versions/latest?verbose=true", {"schema": new})
    return response.json() if response.status == 200 else None


def reasons_agree_with_verdicts(client):
    """Random pairs: if avroreg refuses the new schema, the gateway finds a reason."""
    schemas, verdicts = random_schemas.Schemas(7), {True: 0, False: 0}
    for at in range(700):
        old = schemas.schema(3, set())
        new = schemas.schema(3, set()) if at % 3 == 0 else schemas.changed(json.loads(json.dumps(old)))
        found = reason_of_pair(client, json.dumps(old), json.dumps(new))
        if found is None:
            continue
        verdicts[found["is_compatible"]] += 1
        assert found["is_compatible"] == (not found["messages"]), found
        first = found["messages"][0] if found["messages"] else "errorType"
        assert "errorType" in first and "INCOMPATIBLE" not in first, (new, old, found)
    assert min(verdicts.values()) > 50, verdicts
    return f"{verdicts[True]} compatible, {verdicts[False]} incompatible, each of these with a reason"


ROWS = [a_check_has_messages, each_refusing_version_is_named, a_refused_check_stays_refused, each_reason_is_named,
        deep_schemas_get_a_general_message, reasons_agree_with_verdicts]
