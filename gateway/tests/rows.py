#!/usr/bin/env python3
"""Tests each request that the gateway changes or responds to, with a running avroreg. Prints a line for each row.

    python3 gateway/tests/rows.py GATEWAY AVROREG [requests|lists|checks]..     two URLs; the registry is new. Default: all; lists need requests

The wanted responses are those of Confluent's registry, as README.md lists them, or avroreg's own.
"""
import sys
import time

import check_rows
import list_rows
import request_rows
from client import Client

MODULES = {"requests": request_rows, "lists": list_rows, "checks": check_rows}


def main():
    client, chosen = Client(sys.argv[1], sys.argv[2]), sys.argv[3:] or MODULES
    for name, module in MODULES.items():
        for row in module.ROWS if name in chosen else ():
            began = time.monotonic()
            result = row(client)
            print(f"passed  {row.__name__.replace('_', ' ')}{': ' + result if result else ''} ({time.monotonic() - began:.1f} s)", flush=True)


if __name__ == "__main__":
    main()
