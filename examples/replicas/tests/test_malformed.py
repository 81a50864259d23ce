"""Which writes avroreg rejects as malformed. `odd.sh` compares with avroreg itself."""
import unittest

from relay.malformed import is_malformed

VALUES = (b'"FULL"', b'"\\ud83d\\ude00"', b'"", "x": [1, -0.5e-400, 1e308, {"a": null}]', b'"", "compatibility": ""', b'"", "x": ' + b"[" * 126 + b"]" * 126)
NO_VALUES = (
    b"1", b"null", b'["FULL"]', b'"", "x": 1e400', b'"", "x": ' + b"9" * 400, b'"", "x": ' + b"9" * 5000, b'"", "x": NaN', b'"", "x": -Infinity',
    b'"\\ud800"', b'"", "\\udc00": 1', b'"\xff"', b'"\n"', b'"\\x41"', b'"", "x": 01', b'"",', b'"", "x": ' + b"[" * 127 + b"]" * 127,
    b'"", "x": ' + b"[" * 100000, b'"", "compatibility": 1',
)  # fmt: skip
SEGMENTS = (b"s", b"%", b"%zz", b"a%2Fb", b"%C3%A4", b"s" * 255, b"%E2%82%AC" * 85)
NO_SEGMENTS = (b"%00", b"%1f", b"%7F", b"%ff", b"%C3", b"s" * 256, b"%E2%82%AC" * 86)


class Writes(unittest.TestCase):
    def test_bodies(self) -> None:
        for value in VALUES:
            self.assertFalse(is_malformed(b"PUT /config?x=1", b'{"compatibility":%s}' % value), value[:80])
        for value in NO_VALUES:
            self.assertTrue(is_malformed(b"PUT /config", b'{"compatibility":%s}' % value), value[:80])
        for body in (b"", b" ", b"{}", b"[]", b"\xef\xbb\xbf{\"mode\":\"\"}", b'{"mode":""}{}', b'{"compatibility":""}'):
            self.assertTrue(is_malformed(b"PUT /mode", body), body)
        for target, name in ((b"PUT /mode/s", b"mode"), (b"PUT /config/s", b"compatibility"), (b"POST /subjects/s/versions", b"schema")):
            self.assertFalse(is_malformed(target, b' {"%s":"x"}\n' % name), target)

    def test_segments(self) -> None:
        for line in (b"DELETE /subjects/%b", b"DELETE /subjects/%b/versions/1?permanent=true", b"DELETE /subjects/%b/versions/%%31"):
            for segment in SEGMENTS:
                self.assertFalse(is_malformed(line % segment, b""), segment)
            for segment in NO_SEGMENTS:
                self.assertTrue(is_malformed(line % segment, b""), segment)
        for version, is_wrong in ((b"0", False), (b"%00", False), (b"x" * 300, False), (b"%ff", True)):
            self.assertEqual(is_malformed(b"DELETE /subjects/s/versions/" + version, b"zzz"), is_wrong, version)
