"""Checks the identity text of the schema that a text denotes, or that the text is an invalid schema.

`text` is a text, and `is` its identity text, as `avroreg text` prints it; `is none` means that the text is an invalid schema. If a
request has room for the text, it is also registered, and the stored schema is read.
"""

from .messages import NORMAL_END, build_error_response, build_request, build_response, check_responses
from .program import CaseError, check_outcome, describe_request, run_program, shorten, write_file
from .reading import quote

BODY_LIMIT = 1_048_576


def check(case, folder):
    """Checks each text of a case. Returns the number of texts with an expected identity text, or raises CaseError."""
    text, expected = None, []
    for line in case.lines:
        if line.keyword == "text":
            text = case.value(line.argument)
        elif line.keyword == "is" and text is not None:
            identity = None if line.argument == "none" else case.value(line.argument)
            expected.append((line.location, text, identity))
        else:
            raise CaseError(f"{line.location}: expected text S, then is T or is none")
    for location, text, identity in expected:
        check_printed(location, text, identity, folder)
    check_registered(expected)
    return len(expected)


def check_printed(location, text, identity, folder):
    """Checks that `avroreg text` prints the identity text, and prints the same for the identity text itself. If `identity` is
    None, checks that it rejects the text."""
    rejected = (2, "", "avroreg: S is not a schema\n")
    printed = (0, f"{identity}\n", "")
    write_file(folder, "S", text)
    context = f"{location}: avroreg text\n  schema: {shorten(text)}"
    check_outcome(context, rejected if identity is None else printed, run_program(["text", "S"], folder=folder))
    if identity is not None:
        write_file(folder, "S", identity)
        context = f"{location}: avroreg text with the identity text\n  schema: {shorten(identity)}"
        check_outcome(context, printed, run_program(["text", "S"], folder=folder))


def check_registered(expected):
    """Registers each text in its own subject of one registry, and reads the stored schema. Omits bodies above the limit.

    expected  a list of (location, text, identity text, or None for an invalid schema)

    Raises CaseError if a response isn't the expected one.
    """
    requests, responses, ids = b"", [], {}
    for index, (location, text, identity) in enumerate(expected):
        body = f'{{"schema":{quote(text)}}}'
        if len(body.encode()) > BODY_LIMIT:
            continue
        request = build_request("POST", f"/subjects/s{index}/versions", body)
        requests += request
        context = describe_request(f"{location}, registered", request)
        if identity is None:
            responses.append((context, build_error_response(42201)))
        else:
            schema_id = ids.setdefault(identity, len(ids) + 1)
            responses.append((context, build_response(200, f'{{"id":{schema_id}}}')))
            request = build_request("GET", f"/subjects/s{index}/versions/latest/schema")
            requests += request
            context = describe_request(f"{location}, registered and read", request)
            responses.append((context, build_response(200, identity)))
    check_responses(responses, run_program(["run"], requests), NORMAL_END)
