"""Schemas whose check takes long."""
import json


def union(start: dict[str, object], records: list[dict[str, object]]) -> bytes:
    return json.dumps({"schema": json.dumps([start, *records], separators=(",", ":"))}).encode()


def start_of(number: int) -> dict[str, object]:
    return {"type": "record", "name": "n.Z", "fields": [{"name": "f", "type": "int", "default": number}]}


def record_of(space: str, field: str) -> dict[str, object]:
    return {"type": "record", "name": f"{space}.A", "fields": [{"name": field, "type": "n.Z"}]}


def slow_writer(number: int) -> bytes:
    """A union of 3,900 records with one last name."""
    return union(start_of(number), [record_of(f"n{it}", "f") for it in range(3900)])


def slow_reader() -> bytes:
    """A union that reads such a union with its last branch. To find it, avroreg compares 15 million pairs: one to three seconds."""
    last: dict[str, object] = {"type": "record", "name": "e.A", "fields": []}
    return union(start_of(-1), [*(record_of(f"m{it}", "r") for it in range(3900)), last])
