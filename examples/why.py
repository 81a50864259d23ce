#!/usr/bin/python3
"""Say why a reader's schema can't read what a writer's schema wrote: the opinion of python3-avro.

    why.py READER WRITER     both are files with a schema

This is a second opinion: avroreg's verdict alone counts. Names are compared without their namespaces, as avroreg does.
Prints a line for each reason: the path, the reader's part, the writer's part, the reason. Status 0 if there is a reason,
1 if python3-avro finds none, 2 if it can't read a schema, 64 for wrong arguments.
"""

import json
import sys
from collections.abc import Iterator
from dataclasses import dataclass, field
from pathlib import Path

from avro.compatibility import ReaderWriterCompatibilityChecker, SchemaCompatibilityType, schema_name_equals
from avro.constants import PRIMITIVE_TYPES
from avro.schema import ArraySchema, EnumSchema, Field, FixedSchema, MapSchema, NamedSchema, RecordSchema, Schema, UnionSchema, parse

MOST_CHARACTERS = 60


def full_name(name: str, namespace: str) -> str:
    return name if "." in name or not namespace else f"{namespace}.{name}"


def with_full_names(schema: object, namespace: str = "") -> object:
    """The schema with full names only: python3-avro treats `{"name": "A", "namespace": "n"}` and `{"name": "n.A"}` as two names."""
    match schema:
        case str():
            return schema if schema in PRIMITIVE_TYPES else full_name(schema, namespace)
        case list():
            return [with_full_names(branch, namespace) for branch in schema]
        case {"name": str(name)}:
            name = full_name(name, schema.get("namespace", namespace))
            namespace = name.rpartition(".")[0]
            changed = {key: value for key, value in schema.items() if key != "namespace"} | {"name": name}
            if "aliases" in schema:
                changed["aliases"] = [full_name(alias, namespace) for alias in schema["aliases"]]
            if "fields" in schema:
                changed["fields"] = [{**each, "type": with_full_names(each["type"], namespace)} for each in schema["fields"]]
            return changed
        case dict():
            return {key: with_full_names(value, namespace) if key in ("type", "items", "values") else value
                    for key, value in schema.items()}
    return schema


def load(file: Path) -> Schema:
    return parse(json.dumps(with_full_names(json.loads(file.read_text(encoding="utf-8")))))


def short_text(schema: Schema | None) -> str:
    """A short text for a schema: the name of a named type, else the JSON."""
    if schema is None:
        return "missing"
    if isinstance(schema, NamedSchema):
        return f"{schema.type} {schema.fullname}"
    text = json.dumps(schema.to_json())
    return text if len(text) <= MOST_CHARACTERS else text[:MOST_CHARACTERS] + "..."


@dataclass(frozen=True)
class Reason:
    path: str
    reader: Schema | None
    writer: Schema | None
    text: str

    def __str__(self) -> str:
        return f"at {self.path}: reader {short_text(self.reader)}, writer {short_text(self.writer)}: {self.text}"


def is_compatible(reader: Schema, writer: Schema) -> bool:
    verdict = ReaderWriterCompatibilityChecker().get_compatibility(reader, writer).compatibility
    return verdict is SchemaCompatibilityType.compatible


def reason_of(reader: Schema, writer: Schema) -> str:
    """The checker's reason for two parts, such as `fixed size mismatch (expected: 3, found: 2)`."""
    result = ReaderWriterCompatibilityChecker().get_compatibility(reader, writer)
    kinds = " and ".join(dict.fromkeys(kind.value.replace("_", " ") for kind in result.incompatibilities))
    return f"{kinds} ({'; '.join(sorted(result.messages))})"


def writer_field(of_reader: Field, writer: RecordSchema) -> Field | None:
    """The writer's field for a reader's field, by its name or an alias."""
    names = [of_reader.name, *(of_reader.props.get("aliases") or ())]
    return next((writer.fields_dict[name] for name in names if name in writer.fields_dict), None)


def same_name(reader: NamedSchema, writer: NamedSchema) -> bool:
    """Compares names as avroreg does, without their namespaces. python3-avro compares full names."""
    return schema_name_equals(reader, writer) or reader.fullname.rpartition(".")[2] == writer.fullname.rpartition(".")[2]


def record_branch(union: UnionSchema, fullname: str) -> RecordSchema | None:
    return next((branch for branch in union.schemas if isinstance(branch, RecordSchema) and branch.fullname == fullname), None)


def reasons_in_symbols(reader: EnumSchema, writer: EnumSchema, path: str) -> Iterator[Reason]:
    missing = [symbol for symbol in writer.symbols if symbol not in reader.symbols]
    if missing and reader.props.get("default") is None:
        yield Reason(path, reader, writer, f"the reader lacks the symbols {', '.join(missing)}, and has no default")


@dataclass
class Walk:
    """Compares two schemas part by part. For whole schemas, the checker returns messages and places as two separate sets."""

    seen: set[tuple[int, int]] = field(default_factory=set)

    def reasons(self, reader: Schema, writer: Schema, path: str = "$") -> Iterator[Reason]:
        if (id(reader), id(writer)) in self.seen or is_compatible(reader, writer):
            return
        self.seen.add((id(reader), id(writer)))
        match reader, writer:
            case RecordSchema(), RecordSchema() if same_name(reader, writer):
                yield from self.reasons_in_fields(reader, writer, path)
            case EnumSchema(), EnumSchema() if same_name(reader, writer):
                yield from reasons_in_symbols(reader, writer, path)
            case FixedSchema(), FixedSchema() if same_name(reader, writer) and reader.size == writer.size:
                return
            case ArraySchema(), ArraySchema():
                yield from self.reasons(reader.items, writer.items, f"{path}[]")
            case MapSchema(), MapSchema():
                yield from self.reasons(reader.values, writer.values, f"{path}{{}}")
            case _, UnionSchema():
                for branch in writer.schemas:
                    yield from self.reasons(reader, branch, path)
            case UnionSchema(), RecordSchema() if branch := record_branch(reader, writer.fullname):
                yield from self.reasons(branch, writer, path)
            case _:
                yield Reason(path, reader, writer, reason_of(reader, writer))

    def reasons_in_fields(self, reader: RecordSchema, writer: RecordSchema, path: str) -> Iterator[Reason]:
        for of_reader in reader.fields:
            place, of_writer = f"{path}.{of_reader.name}", writer_field(of_reader, writer)
            if of_writer:
                yield from self.reasons(of_reader.type, of_writer.type, place)
            elif not of_reader.has_default:
                yield Reason(place, of_reader.type, None, "the reader's field has no default")


def main() -> int:
    if len(sys.argv) != 3:
        print("usage: why.py READER WRITER", file=sys.stderr)
        return 64
    try:
        reader, writer = (load(Path(name)) for name in sys.argv[1:])
        found = list(Walk().reasons(reader, writer))
    except Exception as error:  # python3-avro fails in many ways with schemas that it doesn't support
        print(f"python3-avro can't read a schema: {error}")
        return 2
    for reason in found:
        print(reason)
    return 0 if found else 1


if __name__ == "__main__":
    sys.exit(main())
