"""Checks whether a reader's schema is compatible with a writer's schema, by `avroreg check`.

A `writer` and a `reader` apply until the next one of their kind. Each verdict, `compatible` or `incompatible`, is one check.
`exchanged` before a verdict swaps the two schemas.
"""

from .program import CaseError, check_outcome, run_program, shorten, write_file

STATUSES = {"compatible": 0, "incompatible": 1}


def check(case, folder):
    """Checks each verdict of a case. Returns the number of verdicts, or raises CaseError at the first wrong one."""
    count, schemas = 0, {"writer": None, "reader": None}
    for line in case.lines:
        is_exchanged = line.keyword == "exchanged"
        verdict = line.argument if is_exchanged else line.text
        if line.keyword in schemas:
            schemas[line.keyword] = case.value(line.argument)
        elif verdict in STATUSES and None not in schemas.values():
            writer, reader = schemas.values()
            if is_exchanged:
                writer, reader = reader, writer
            check_verdict(line.location, writer, reader, verdict, folder)
            count += 1
        else:
            raise CaseError(
                f"{line.location}: expected writer S and reader S, then compatible, incompatible, or exchanged and one of them"
            )
    return count


def check_verdict(location, writer, reader, verdict, folder):
    """Runs `avroreg check` on two schemas. Raises CaseError if it doesn't print this verdict with its status."""
    write_file(folder, "writer", writer)
    write_file(folder, "reader", reader)
    process = run_program(["check", "--reader", "reader", "--writer", "writer"], folder=folder)
    context = f"{location}: avroreg check\n  writer: {shorten(writer)}\n  reader: {shorten(reader)}"
    check_outcome(context, (STATUSES[verdict], f"{verdict}\n", ""), process)
