"""Writes with odd bodies and odd subjects: for the comparison of the relay with an avroreg alone."""
import random

PLAIN = ('{"compatibility":"FULL"}', '{"mode":"READWRITE"}', '{"schema":"\\"int\\""}', '{"schema":"x","mode":"y","compatibility":"z","a":[1,{"b":null}]}')
VALUES = (
    '"FULL"', '"\\u0046ULL"', '"\\ud83d\\ude00"', '"\\ud800"', '"\\udc00\\ud800"', "null", "true", "tru", "1", "-0", "01", "+1", "1.", ".5", "1e", "1e5", "1e308",
    "1e309", "-1e400", "1E-400", "0e999999999999", "9" * 308, "9" * 310, "9" * 5000, "NaN", "Infinity", "-Infinity", "[]", "[1,]", "{}", '{"a":}', '{"a":1,}', "'x'",
    '"\t"', '"\x7f"', '"\\x41"', '"\\/"', '"\\u12"', '"\xff"', '"\u00e4"', "/**/1", "[" * 126 + "]" * 126, "[" * 127 + "]" * 127, "[" * 5000, "[[[{" * 40, '""""', "",
)  # fmt: skip
NAMES = ('"compatibility"', '"mode"', '"schema"', '"schemaType"', '"a"', '"\\u006dode"', '"\\ud800"', "mode", '""')
EDGES = ("", " ", "\n\t\r ", "\ufeff", "\v", "\u00a0", "}", "{}", "\0", ",")
SEGMENTS = (
    "s", "%73", "%", "%zz", "%2F", "%2f", "%C3%A4", "%c3", "%ff", "%00", "%1f", "%20", "%7F", "%C2%80", "%ED%A0%80", "s" * 255, "s" * 256, "%E2%82%AC" * 85,
    "%E2%82%AC" * 86, "+", "a;b", "a#b", ".", "..", "%2e",
)  # fmt: skip
VERSIONS = ("1", "latest", "0", "%31", "%ff", "%00", "x" * 300, "%")


def body(pick: random.Random) -> bytes:
    """A body that may be JSON, and may have the member that a write needs."""
    if pick.random() < 0.2:
        return pick.choice(PLAIN).encode()
    members = [f"{pick.choice(NAMES)}:{pick.choice(VALUES)}" for _ in range(pick.randrange(1, 4))]
    text = pick.choice(EDGES[:3] * 4 + EDGES) + "{" + ",".join(members) + "}" + pick.choice(EDGES[:3] * 4 + EDGES)
    return text.encode("latin-1" if pick.random() < 0.5 and text.isascii() is False and "\ufeff" not in text else "utf-8")


def write(pick: random.Random) -> tuple[str, str, bytes]:
    """The method, the target and the body of a write."""
    subject, version = pick.choice(SEGMENTS[:2] * 8 + SEGMENTS), pick.choice(VERSIONS)
    kind = pick.randrange(6)
    if kind == 0:
        return "DELETE", f"/subjects/{subject}" + pick.choice(("", f"/versions/{version}")), pick.choice((b"", b"zzz"))
    target = (f"/config/{subject}", "/config", f"/mode/{subject}", "/mode", f"/subjects/{subject}/versions")[kind - 1]
    return "POST" if kind == 5 else "PUT", target, body(pick)
