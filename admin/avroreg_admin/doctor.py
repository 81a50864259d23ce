"""Name each problem, what still works, and the next command. docs/incident.md explains the problems."""

from . import facts, findings
from .output import DONE, NO


def add(parser) -> None:
    parser.add_argument("--quick", action="store_true", help="leave out the program's checksum and the certificate")


def run(context) -> int:
    found = findings.of(facts.gather(context.place, context.options.quick))
    context.output.data(found)
    for finding in found:
        context.output.problem(finding)
    problems = [finding for finding in found if not finding.is_information]
    if not problems:
        context.output.ok("no problem")
    return NO if problems else DONE
