#!/usr/bin/env python3
"""Checks pairs of hostile schemas, and compares what each costs with the bounds in the README of avro_resolve.

    hostile_pairs.py                    each shape: the lookups of the bound, the processor time, the peak memory
    hostile_pairs.py --count bursts     also the instructions, counted by callgrind, in minutes a shape
    hostile_pairs.py --write FOLDER     only writes the texts NAME.w and NAME.r

AVROREG names the program. The status is 1 if a verdict is wrong, or if a pair takes more memory than the bound, or with --count
more instructions. The processor time has no limit, since it depends on the machine. A new shape is a function and a line of SHAPES.
"""

import argparse
import functools
import itertools
import json
import os
import re
import string
import subprocess
import sys
import tempfile
from collections import Counter
from typing import NamedTuple

LIMIT = 1 << 20  # the most bytes of a schema's text
INSTRUCTIONS_A_LOOKUP = 30
INSTRUCTIONS_A_BYTE = 500
RESERVED = {"name", "type", "size", "order", "items", "fields", "values", "aliases", "symbols", "namespace"}
PRIMITIVES = {"null", "boolean", "int", "long", "float", "double", "bytes", "string"}
LETTERS = string.ascii_letters + "_"
NAMES = [
    "".join(letters)
    for count in range(3)
    for letters in itertools.product(LETTERS, *[LETTERS + string.digits] * count)
]


# Texts


def record(name, *fields):
    return f'{{"type":"record","name":"{name}","fields":[{",".join(fields)}]}}'


def field(name, kind, more=""):
    return f'{{"name":"{name}","type":{kind}{more}}}'


def quoted(names):
    return ",".join(f'"{name}"' for name in names)


def whole(label, definitions, *fields):
    """A record with these definitions in a field that every reader can skip or fill in."""
    return record("T", field(label, f'["null",{",".join(definitions)}]', ',"default":null'), *fields)


def cycle(prefix, count):
    """Records that refer to one another in a cycle. Cycles of 32 and 33 keep the recursion busy until elimination decides."""
    inner = [record(f"{prefix}{k}.Q", field("n", f'"{prefix}{(k + 1) % count}.Q"')) for k in range(count - 1, 0, -1)]
    return record(f"{prefix}0.Q", field(f"{prefix}d", f'["null",{",".join(inner)}]', ',"default":null'), field("n", f'"{prefix}1.Q"'))


def fill(head, tail, make):
    """The head, as many of the parts as fit, and the tail."""
    parts, left = [], LIMIT - len(head) - len(tail)
    for index in itertools.count():
        part = make(index)
        left -= len(part) + 1
        if left < 0:
            return head + ",".join(parts) + tail
        parts.append(part)


def bursts(size):
    """The pairs of each of the writer's records fail in runs of this size, and 36 unions have the record as a branch."""
    names, groups = NAMES[:3300], 3328 // size
    inner = [record("k.K", field("v", '"int"')), *[record(f"{it}.A", field("f", '"z.Z"')) for it in names], cycle("w", 32)]
    late = record("z.Z", field("wd", f'["null",{",".join(inner)}]', ',"default":null'), field("k", '"k.K"'))
    head = f'{{"type":"record","name":"T","fields":[{field("d", late)},{field("f", chr(34) + "w0.Q" + chr(34))},'
    branches = quoted(f"{it}.A" for it in names)
    writer = fill(head, "]}", lambda index: field(f"u{index}", f"[{branches}]"))
    parts = [record(f"g{group}.Z", field("k", '"k.K"')) for group in range(groups)]
    parts += [record(f"{NAMES[k]}.A", field("f", f'"g{k // size}.Z"')) for k in range(groups * size)]
    return writer, whole("rd", [record("k.K", field("v", '"string"')), *parts, cycle("r", 33)], field("f", '"r0.Q"'))


NEST = '{"":' * 19 + "{}" + "}" * 19  # objects of five bytes each


def memory(attribute):
    """All records of the writer with all fields of the reader that have aliases, hints for each pair, and the longest worklist."""
    chain = [record("n0.A", field("f", '"int"')), *[record(f"n{k}.A", field("f", f'"n{k - 1}.A"')) for k in range(1, 1010)]]
    many = [record(f"m{k}.B", field("f", '"n0.A"'), *([field("u", '["n0.A"]')] if k < 1000 else [])) for k in range(2040)]
    writer = whole("wd", chain + many, field("f", '"n1009.A"'))
    if attribute:
        writer = fill(writer[:-1] + ',"x":[', "]}", lambda _: NEST)
    head = '{"type":"record","name":"T","fields":[' + field("f", record("A", field("f", '"A"'))) + ","
    head += '{"name":"z","type":{"type":"array","items":{"type":"record","name":"Z","fields":['
    make = lambda index: field(NAMES[index], '["int"]' if index < 2000 else '"T"', ',"aliases":["_"]')
    return writer, fill(head, ']}},"default":[]}]}', make)


def attributes():
    """An attribute of small objects in both schemas. Each object is a node of a tree."""
    text = fill('{"type":"int","x":[', "]}", lambda _: NEST)
    return text, text


def holes():
    """34 unions on each side, each without another 34th of the records as branches."""
    names = NAMES[:3300]

    def side(prefix, count, kind):
        records = [record("Zz.Z", field("f", kind)), *[record(f"{it}.A", field("f", '"Zz.Z"')) for it in names]]
        unions = [f"[{quoted(f'{it}.A' for k, it in enumerate(names) if k % 34 != hole)}]" for hole in range(34)]
        fields = [field(f"u{hole}", union) for hole, union in enumerate(unions)]
        return whole(f"{prefix}d", [*records, cycle(prefix, count)], field("f", f'"{prefix}0.Q"'), *fields)

    return side("w", 32, '"int"'), side("r", 33, '"string"')


def enums():
    """Enums with one last name, and symbols that the reader's all have."""

    def side(prefix, count, symbols):
        listed = quoted(LETTERS[:symbols])
        parts = [f'{{"type":"enum","name":"n{k}.E","symbols":[{listed}]}}' for k in range(3990)]
        return whole(f"{prefix}d", [*parts, cycle(prefix, count)], field("f", f'"{prefix}0.Q"'))

    return side("w", 32, 46), side("r", 33, 47)


# The shapes: the texts, and whether the reader can read the writer.
SHAPES = {
    "bursts of 63": (functools.partial(bursts, 63), True),
    "bursts of 64": (functools.partial(bursts, 64), True),
    "bursts of 511": (functools.partial(bursts, 511), True),
    "bursts of 512": (functools.partial(bursts, 512), True),
    "holes": (holes, False),
    "enums": (enums, True),
    "memory": (functools.partial(memory, True), False),
    "memory without attribute": (functools.partial(memory, False), False),
    "attributes": (attributes, True),
}


# Bounds


class Sizes(NamedTuple):
    """What a schema has of each kind. `names` counts how often each name is a field's own, `aliases` how often it is an alias.
    `objects` are those in members without a meaning."""

    places: int
    branches: int
    elements: int
    symbols: int
    names: Counter
    aliases: Counter
    aliased: int
    objects: int


def objects_in(value):
    inner = value.values() if isinstance(value, dict) else value if isinstance(value, list) else ()
    return isinstance(value, dict) + sum(map(objects_in, inner))


def sizes(text):
    count, names, aliases, todo = Counter(), Counter(), Counter(), [json.loads(text)]
    while todo:
        it = todo.pop()
        if isinstance(it, list):
            count["branches"] += len(it)
            todo += it
        elif isinstance(it, str):
            count["places"] += it in PRIMITIVES
            continue
        else:
            todo += [it[key] for key in ("items", "values") if it["type"] in ("array", "map") and key in it]
            count["elements"] += it["type"] in ("array", "map")
            count["objects"] += sum(objects_in(value) for key, value in it.items() if key not in RESERVED)
            count["symbols"] += len(it.get("symbols", []))
            for part in it.get("fields", []):
                names[part["name"]] += 1
                aliases.update(part.get("aliases", []))
                count["aliased"] += bool(part.get("aliases"))
                todo.append(part["type"])
        count["places"] += 1
    counts = [count[it] for it in ("places", "branches", "elements", "symbols")]
    return Sizes(*counts, names, aliases, count["aliased"], count["objects"])


def lookups(writer, reader):
    """The bound of elimination, as the README of avro_resolve states it."""
    parts = reader.branches + reader.names.total() + reader.aliases.total() + reader.symbols
    same = sum(uses * (reader.names[name] + reader.aliases[name]) for name, uses in writer.names.items())
    pairs = writer.places * reader.places
    return pairs + writer.places * parts + reader.places * (writer.branches + writer.elements + writer.names.total()) + same


def memory_bound(writer, reader, texts):
    """MiB: 7 bytes a pair of places and 2 a writer's place and reader's field with aliases. Then 900 bytes an object in an
    attribute, 30 bytes a byte of text, and 20 MiB for the program."""
    pairs = 7 * writer.places * reader.places + 2 * writer.places * reader.aliased
    return (pairs + 900 * (writer.objects + reader.objects) + 30 * sum(map(len, texts))) / (1 << 20) + 20


# Measurements

# A small process starts the program: what a child uses at first counts for its peak, and this process is large.
MEASURE = """
import os, sys
pid = os.fork()
if pid == 0:
    os.dup2(2, 1)
    os.execvp(sys.argv[1], sys.argv[1:])
_, status, used = os.wait4(pid, 0)
print(os.waitstatus_to_exitcode(status), used.ru_utime + used.ru_stime, used.ru_maxrss / 1024)
"""


def measure(command):
    ran = subprocess.run([sys.executable, "-S", "-c", MEASURE, *command], capture_output=True, text=True)
    status, seconds, mebibytes = ran.stdout.split()
    return int(status), float(seconds), float(mebibytes)


def instructions(command):
    words = ["valgrind", "--tool=callgrind", "--callgrind-out-file=/dev/null", *command]
    ran = subprocess.run(words, capture_output=True, text=True, errors="replace")
    return int(re.search(r"Collected : (\d+)", ran.stderr)[1])


def try_shape(name, folder, given):
    """Prints the shape's line. Returns whether the verdict is right and the bounds hold."""
    make, can_read = SHAPES[name]
    texts = make()
    paths = [f"{folder}/{name.replace(' ', '_')}.{end}" for end in "wr"]
    for path, text in zip(paths, texts):
        with open(path, "w", encoding="ascii") as file:
            file.write(text)
    if given.write:
        return True
    writer, reader = map(sizes, texts)
    command = [os.environ["AVROREG"], "check", "--writer", paths[0], "--reader", paths[1]]
    status, seconds, mebibytes = measure(command)
    bound, most = lookups(writer, reader), memory_bound(writer, reader, texts)
    line = f"{name:25} {writer.places:5} {reader.places:5} places {bound / 1e6:6.0f} M lookups {seconds:6.2f} s {mebibytes:4.0f} of {most:4.0f} MiB"
    passes = status == (0 if can_read else 1) and mebibytes <= most
    if given.count:
        counted = instructions(command)
        limit = INSTRUCTIONS_A_LOOKUP * bound + INSTRUCTIONS_A_BYTE * sum(map(len, texts))
        passes = passes and counted <= limit
        line += f" {counted / 1e6:7.0f} of {limit / 1e6:7.0f} M instructions"
    print(line, "" if passes else "FAILS", flush=True)
    return passes


def main():
    parser = argparse.ArgumentParser(description=__doc__, formatter_class=argparse.RawDescriptionHelpFormatter)
    parser.add_argument("word", nargs="*", help="try only shapes with one of these in their names")
    parser.add_argument("--count", action="store_true", help="count instructions")
    parser.add_argument("--write", metavar="FOLDER", help="write the texts into this folder and measure nothing")
    given = parser.parse_args()
    names = [it for it in SHAPES if not given.word or any(word in it for word in given.word)]
    if given.write:
        os.makedirs(given.write, exist_ok=True)
    with tempfile.TemporaryDirectory() as folder:
        passes = [try_shape(it, given.write or folder, given) for it in names]
    sys.exit(0 if passes and all(passes) else 1)


if __name__ == "__main__":
    main()
