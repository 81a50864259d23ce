#!/usr/bin/env python3
"""Copies the relay and nginx.conf with one break, which a script must detect. trial.sh detects breaks of the log, odd.sh those
of requests, and operations.sh those of reads through nginx.

    breaks.py trial|odd|clients             prints the name of each break, and a regular expression for the script's report
    breaks.py trial|odd|clients NAME FOLDER copies both with that break into a new folder
"""
import pathlib
import shutil
import sys
from typing import NamedTuple

HERE = pathlib.Path(__file__).resolve().parent.parent


class Edit(NamedTuple):
    """A text in a file of the relay or in nginx.conf, and its replacement."""

    file: str
    text: str
    change: str


class Break(NamedTuple):
    """The edits, and the report of a script that detects them. A script that fails with another report hasn't detected them."""

    report: str
    edits: tuple[Edit, ...]


STOPS = "no node stops: .*answered otherwise than this node"
TABLES = "the tables of the three nodes are the log's"

# n2 counts every tenth entry as applied without sending it to avroreg.
SKIP_AN_ENTRY = Edit(
    "replica.py",
    "        for message in batch:\n",
    '        is_skipped = self.config.node == "n2" and sum(entry.name) % 10 == 0\n'
    "        for message in [] if is_skipped else batch:\n",
)
# A write goes to this node's avroreg first and then into the log.
APPLY_BEFORE_APPEND = Edit(
    "replica.py",
    "            return key, await self.appender.response_to(message)\n",
    "            response = await self.registry.ask(message)\n"
    "            await self.appender.response_to(message)\n"
    "            return key, response\n",
)
# A client gets a response when the write is in the log, before avroreg's response.
ANSWER_BEFORE_APPLY = Edit(
    "appender.py",
    "                break\n            except Unavailable:\n                is_unsure",
    "                for writer in writers:\n"
    "                    if not writer.done():\n"
    '                        writer.set_result(Response(200, b"Content-Length: 2\\r\\n", b"{}"))\n'
    "                break\n            except Unavailable:\n                is_unsure",
)
# A node goes on from a position whose next entries were trimmed.
TRUST_AN_OLD_POSITION = Edit("log.py", "        if after < trimmed:\n", "        if after < trimmed - 2**62:\n")
# A node takes any registry for its own.
TRUST_ANY_REGISTRY = Edit("registry.py", "        if self.witness:\n", "        if False:\n")
# No node compares its digest with the others' digests.
DROP_THE_DIGEST = Edit("digest.py", "    return 2 * len(contradicting) > nodes\n", "    return False\n")
# After a failure of etcd, a node appends nothing for two minutes.
WAIT_TOO_LONG = Edit("appender.py", "RETRY_SECONDS = 0.1\n", "RETRY_SECONDS = 120\n")

TRIAL = {
    "skip-an-entry": Break(STOPS, (SKIP_AN_ENTRY,)),
    "apply-before-append": Break(STOPS, (APPLY_BEFORE_APPEND,)),
    "answer-before-apply": Break("responses that the log doesn't give: [1-9]", (ANSWER_BEFORE_APPLY,)),
    "trust-an-old-position": Break("a node that needs entries that were trimmed stops", (TRUST_AN_OLD_POSITION,)),
    "drop-the-digest": Break("a node whose avroreg was written to past the log stops", (DROP_THE_DIGEST,)),
    "wait-too-long": Break("a majority was healthy for", (WAIT_TOO_LONG,)),
    "trust-any-registry": Break(f"({STOPS}|{TABLES}|a fresh read of|responses that the log)", (TRUST_ANY_REGISTRY,)),
    # The nodes themselves don't detect these two, so the trial's comparison must.
    "skip-an-entry-unnoticed": Break(TABLES, (SKIP_AN_ENTRY, DROP_THE_DIGEST)),
    "apply-before-append-unnoticed": Break(TABLES, (APPLY_BEFORE_APPEND, DROP_THE_DIGEST)),
}

ODD = {
    # The relay doesn't treat a change of a mode as a write, and sends it to avroreg with a valid key.
    "forward-a-write": Break(
        "a write is past the log: PUT /mode/s1",
        (Edit("messages.py", "(config|mode)(/", "(config)(/"), Edit("messages.py", 'NO_KEY = b"?"', 'NO_KEY = b"no-key"')),
    ),
    # The relay ignores Transfer-Encoding, so another reader may see another end of the body.
    "ignore-a-coding": Break(
        "an ambiguous request got",
        (Edit("http1.py", 'values(head, b"transfer-encoding")', 'values(head, b"transfer-encodings")'),),
    ),
    # If there are two lengths, the relay uses the first one.
    "take-the-first-length": Break(
        "an ambiguous request got",
        (Edit("http1.py", "    if len(lines) > 1 or not length:", "    if not length:"),),
    ),
    # After a malformed head, the relay reads on.
    "read-on": Break(
        "an ambiguous request got",
        (
            Edit(
                "server.py",
                "        except Refused as refused:\n            await self.refuse(reader, writer, refused)\n",
                "        except Refused as refused:\n"
                '            writer.write(http1.write_response(http1.refusal(refused), b"", False))\n'
                "            await self.serve_one(reader, writer, task)\n",
            ),
        ),
    ),
    # The relay takes what h11 takes.
    "trust-the-parser": Break("an ambiguous request got", (Edit("http1.py", " or not CLEAR_HEAD.fullmatch(text)", ""),)),
    # The relay appends malformed writes too.
    "append-malformed-writes": Break(
        "[0-9]+ odd bodies",
        (Edit("replica.py", "        if is_malformed(request.line, request.body):\n", "        if False:\n"),),
    ),
}


OTHERS = "Wrong..another node answers a read of the subjects"
ANY_GET = Edit("nginx.conf", '"$request_method:$http_cache_control"', '"$request_method:"')
ANY_METHOD = Edit("nginx.conf", '    default 1;\n    "GET:"  0;', "    default 0;")

CLIENTS = {
    # nginx forwards the 404 of its own avroreg.
    "answer-404-alone": Break(
        "Wrong..another node answers a read of a subject that n1 doesn.t have",
        (Edit("nginx.conf", "        error_page 404 ", "        error_page 418 "),),
    ),
    # nginx ignores Cache-Control, and reads from its own avroreg.
    "read-fresh-locally": Break("Wrong..a fresh read at n1 has a write of n2", (ANY_GET,)),
    # nginx reads from its own avroreg though the relay has removed the file.
    "read-from-an-old-node": Break("Wrong..a read at n1 has these writes", (Edit("nginx.conf", "if (!-f ", "if (-d "),)),
    # A relay that lags behind the log keeps the file.
    "keep-the-file": Break(
        "Wrong..n1's etcd hangs, so nginx doesn't read",
        (Edit("replica.py", "                self.end_local_reads()\n                self.note(\"reads\"", "                self.note(\"reads\""),),
    ),
    # nginx's own errors lack the key.
    "forget-the-key": Break("Wrong..a write gets 50[24] with its key", (Edit("nginx.conf", "    ~^[^:]*:5          $retry_key;\n", ""),)),
    # A relay that stops leaves the file.
    "leave-the-file": Break(
        OTHERS,
        (Edit("replica.py", "        self.broken = reason\n        self.end_local_reads()\n", "        self.broken = reason\n"),),
    ),
    # nginx sends writes to its own avroreg, which rejects them because of the key that nginx sets.
    "send-writes-past-the-log": Break("Wrong..a write at n1 got Found.status=400", (ANY_METHOD,)),
}


def main() -> None:
    breaks = {"trial": TRIAL, "odd": ODD, "clients": CLIENTS}[sys.argv[1]]
    if len(sys.argv) != 4:
        print("\n".join(f"{name} {it.report}" for name, it in breaks.items()))
        return
    folder = pathlib.Path(sys.argv[3])
    shutil.copytree(HERE / "relay", folder / "relay")
    for name in ("avroreg-relay", "nginx.conf"):
        shutil.copy(HERE / name, folder)
    for edit in breaks[sys.argv[2]].edits:
        path = folder / edit.file if edit.file == "nginx.conf" else folder / "relay" / edit.file
        text = path.read_text()
        if text.count(edit.text) != 1:
            sys.exit(f"breaks.py: {edit.file} doesn't have the text of {sys.argv[2]} once")
        path.write_text(text.replace(edit.text, edit.change))


if __name__ == "__main__":
    main()
