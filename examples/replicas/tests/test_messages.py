"""Which requests are writes, and how batches are joined and split."""
import unittest

from relay import messages

WRITES = """
PUT /config|PUT /config/s|PUT /mode|PUT /mode/s|PUT /config?x=1|PUT /config/a%2Fb?defaultToGlobal=true
POST /subjects/s/versions|POST /subjects/s/versions?normalize=true|POST /subjects/%00/versions
DELETE /subjects/s|DELETE /subjects/s?permanent=true|DELETE /subjects/s/versions/1|DELETE /subjects/s/versions/latest?permanent=true
"""
OTHERS = """
GET /config|GET /subjects/s/versions|POST /subjects/s|POST /compatibility/subjects/s/versions/1|put /config|PUT /config/|PUT /config/s/t
PUT //config|POST /subjects//versions|POST /subjects/s/versions/|POST /subjects/s/versions/1|DELETE /subjects/|DELETE /subjects
DELETE /subjects/s/versions/|DELETE /subjects/s/versions|PATCH /config|PUT http://h/config|PUT *|PUT /Config|PUT /config%2Fs
PUT /config#x/y|PUT /mode/s;x/y
"""


def lines(text: str) -> list[bytes]:
    return [line.encode() for row in text.split("\n") for line in row.split("|") if line]


class Messages(unittest.TestCase):
    def test_writes(self) -> None:
        self.assertEqual([it for it in lines(WRITES) if not messages.is_write(it)], [])

    def test_others(self) -> None:
        self.assertEqual([it for it in lines(OTHERS) if messages.is_write(it)], [])

    def test_a_batch_is_split_into_its_messages(self) -> None:
        bodies = (b"", b"{}", b"PUT /config HTTP/1.1\r\nContent-Length: 3\r\n\r\nabc", b"\r\n\r\n", bytes(range(256)))
        batch = [messages.message(b"PUT /config", b"key", body) for body in bodies]
        self.assertEqual(list(messages.split(b"".join(batch))), batch)

    def test_what_is_no_batch(self) -> None:
        whole = messages.message(b"PUT /config", b"key", b"{}")
        for batch in (whole[:-1], whole + b"x", whole[4:], b"x", whole.replace(b"\r\n", b"\n"), whole.replace(b"Host", b"Hose")):
            with self.assertRaises(ValueError):
                list(messages.split(batch))

    def test_the_key_of_a_read_is_no_key(self) -> None:
        self.assertIsNone(messages.KEY.fullmatch(messages.NO_KEY))
