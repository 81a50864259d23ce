#!/usr/bin/env python3
"""Compares the identity texts that from-confluent.py computes with those in the cases of tests/schemas.

    python3 examples/from-confluent/identities.py
"""
import importlib.util
import pathlib
import sys

sys.dont_write_bytecode = True
ROOT = pathlib.Path(__file__).resolve().parent.parent.parent
sys.path.insert(0, str(ROOT / "tests"))

from harness.reading import read_cases


def mover():
    """Loads from-confluent.py. An import statement can't, because of the hyphen in its name."""
    spec = importlib.util.spec_from_file_location("mover", ROOT / "examples" / "from-confluent.py")
    module = importlib.util.module_from_spec(spec)
    sys.modules["mover"] = module
    spec.loader.exec_module(module)
    return module


def cases():
    """The position of each case, its text, and the identity text of its schema."""
    for file in sorted((ROOT / "tests" / "schemas").iterdir()):
        for case in read_cases(file):
            for line in case.lines:
                if line.keyword == "text":
                    text = case.value(line.argument)
                elif line.argument != "none":
                    yield line.location, text, case.value(line.argument)


def main():
    identity, count = mover().identity, 0
    for where, text, wanted in cases():
        found = identity(text)
        assert found == wanted, f"{where}: {found[:500]}"
        count += 1
    print(f"{count} identity texts, each equal to that of tests/schemas")


if __name__ == "__main__":
    main()
