"""Builds requests and expected responses, by the tables in docs/avro-registry-profile.md, and compares responses."""

import re

from .program import CaseError, check_outcome, completed_process, raise_difference
from .reading import quote

REASON_PHRASES = {
    200: "OK",
    400: "Bad Request",
    404: "Not Found",
    405: "Method Not Allowed",
    409: "Conflict",
    413: "Payload Too Large",
    422: "Unprocessable Entity",
    500: "Internal Server Error",
    501: "Not Implemented",
}
ERROR_MESSAGES = {
    404: "Not found",
    405: "Method not allowed",
    409: "Schema is incompatible with an earlier version",
    413: "Body too large",
    501: "Transfer coding not supported",
    40001: "Malformed request",
    40401: "Subject not found",
    40402: "Version not found",
    40403: "Schema not found",
    40404: "Subject is soft-deleted",
    40405: "Subject is not soft-deleted",
    40406: "Version is soft-deleted",
    40407: "Version is not soft-deleted",
    40408: "Subject has no level of its own",
    40409: "Subject has no mode of its own",
    42201: "Invalid schema",
    42202: "Invalid version",
    42203: "Invalid compatibility level",
    42204: "Invalid mode",
    42205: "Operation not permitted",
    42290: "Retry key was used for another request",
    42292: "No number is left",
    50001: "Error in the backend data store",
}
# How a run ends: its status and standard error.
NORMAL_END = (0, "")
MALFORMED_END = (2, "avroreg: malformed input\n")


def build_request(method, target, body=None, fields=()):
    """Returns the bytes of a request. `fields` are further header fields."""
    lines = [f"{method} {target} HTTP/1.1", "Host: localhost", *fields]
    body = None if body is None else body.encode()
    if body is not None:
        lines.append(f"Content-Length: {len(body)}")
    return ("\r\n".join(lines) + "\r\n\r\n").encode() + (body or b"")


def build_response(status, body, allow=None, closes=False):
    """Returns the bytes of a response. `allow` is the value of Allow; with `closes` it has Connection: close."""
    lines = [f"HTTP/1.1 {status} {REASON_PHRASES[status]}", "Content-Type: application/vnd.schemaregistry.v1+json"]
    lines += [f"Allow: {allow}"] if allow else []
    lines += [f"Content-Length: {len(body.encode())}"]
    lines += ["Connection: close"] if closes else []
    return ("\r\n".join(lines) + "\r\n\r\n" + body).encode()


def build_error_response(code, **fields):
    """Returns the bytes of the response with an error code. `fields` are those of `build_response`."""
    return build_response(int(str(code)[:3]), f'{{"error_code":{code},"message":"{ERROR_MESSAGES[code]}"}}', **fields)


def parse_request(case, line):
    """Returns the bytes of the request in a line, or None if it has none.

    The line is METHOD TARGET, perhaps with [KEY] before it and a body after it, or begins with `bytes`.
    """
    if line.keyword == "bytes":
        return parse_bytes(case, line)
    match = re.fullmatch(r"(?:\[(.*?)\] )?([A-Z]+) (\S+)(?: +(.*))?", line.text)
    if not match:
        return None
    key, method, target, body = match.groups()
    fields = [f"Registry-Retry-Key: {case.substitute(key)}"] if key is not None else []
    fields += [case.substitute(field) for field in line.inner]
    return build_request(method, case.substitute(target), None if body is None else parse_body(case, body), fields)


def parse_body(case, text):
    """Returns the body that a request line describes: `schema S`, `level L`, `mode M`, or a literal text."""
    keyword, _, argument = text.partition(" ")
    if keyword == "schema":
        return f'{{"schema":{quote(case.value(argument.strip(" ")))}}}'
    if keyword == "level":
        return f'{{"compatibility":{quote(case.substitute(argument))}}}'
    if keyword == "mode":
        return f'{{"mode":{quote(case.substitute(argument))}}}'
    return case.value(text)


def parse_bytes(case, line):
    """Returns the bytes of a `bytes` line: of its expression, or of the lines below it, after their bars and joined by CR LF."""
    if line.argument:
        return case.bytes(line.argument)
    if any(not text.startswith("|") for text in line.inner):
        raise CaseError(f"{line.location}: each line below `bytes` must begin with a bar")
    return "\r\n".join(case.substitute(text[1:].removeprefix(" ")) for text in line.inner).encode()


def parse_requests(case, line):
    """Returns the requests below a line, each as bytes. Raises CaseError if one of these lines isn't a request."""
    requests = [parse_request(case, inner) for inner in line.inner_lines()]
    if None in requests:
        raise CaseError(f"{line.location}: a line below it isn't a request")
    return requests


def parse_response(case, line):
    """Returns the bytes of the response in a line: a status and a body, or an error code, with header fields below it."""
    fields = {}
    for field in line.inner:
        name, _, value = field.partition(": ")
        if name == "Allow":
            fields["allow"] = value
        elif field == "Connection: close":
            fields["closes"] = True
        else:
            raise CaseError(f"{line.location}: only Allow and Connection: close can be below a response, not {field}")
    if line.argument:
        return build_response(int(line.keyword), case.value(line.argument), **fields)
    if int(line.keyword) not in ERROR_MESSAGES:
        raise CaseError(f"{line.location}: {line.keyword} isn't an error code")
    return build_error_response(int(line.keyword), **fields)


def first_response(output, expected):
    """Returns the first response in the output. If its head has no length, returns 400 bytes more than the expected one has."""
    head, end, _ = output.partition(b"\r\n\r\n")
    length = re.search(rb"\r\nContent-Length: (\d+)", head)
    return output[: len(head + end) + int(length[1])] if length else output[: len(expected) + 400]


def check_responses(expected, process, end):
    """Checks that a run printed exactly the expected responses, and how it ended. Raises CaseError if either differs.

    expected  a list of (context for error texts, bytes of a response)
    process   the CompletedProcess
    end       the expected status and standard error
    """
    output = process.stdout
    for context, response in expected:
        if not output.startswith(response):
            raise_difference(context, response, first_response(output, response))
        output = output[len(response) :]
    if output:
        raise_difference("unexpected output after the last response", "", output.decode(errors="backslashreplace"))
    status, stderr = end
    check_outcome("the end of the run", (status, "", stderr), completed_process(process.returncode, b"", process.stderr))
