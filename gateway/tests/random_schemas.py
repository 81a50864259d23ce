"""Random schemas with few names, so that many pairs are compatible."""
import random

PRIMITIVE = ["int", "long", "float", "double", "string", "bytes", "null", "boolean"]
COMPLEX = ["record", "enum", "fixed", "array", "map", "union", "reference"]
NAMES = ("A", "B", "n.A", "n.C")


class Schemas:
    def __init__(self, seed):
        self.random = random.Random(seed)

    def schema(self, depth, names):
        kind = self.random.choice(PRIMITIVE + (COMPLEX * 2 if depth else []))
        if kind in ("array", "map"):
            return {"type": kind, "items" if kind == "array" else "values": self.schema(depth - 1, names)}
        if kind == "union":
            return self.union(depth, names)
        if kind == "reference":
            return self.random.choice(sorted(names)) if names else "int"
        return self.definition(kind, depth, names) if kind in ("record", "enum", "fixed") else kind

    def union(self, depth, names):
        branches = {}
        for _ in range(self.random.randint(1, 3)):
            branch = self.schema(depth - 1, names)
            if not isinstance(branch, list):
                branches.setdefault(branch if isinstance(branch, str) else branch.get("name", branch["type"]), branch)
        return list(branches.values())

    def definition(self, kind, depth, names):
        free = [name for name in NAMES if name not in names]
        if not free:
            return "string"
        name = self.random.choice(free)
        names.add(name)
        node = {"type": kind, "name": name.rpartition(".")[2], "namespace": name.rpartition(".")[0]}
        if self.random.random() < 0.2:
            node["aliases"] = [self.random.choice(["A", "n.A", "B"])]
        if kind == "enum":
            node["symbols"] = self.random.sample(["X", "Y", "Z"], self.random.randint(1, 3))
            if self.random.random() < 0.3:
                node["default"] = node["symbols"][0]
        elif kind == "fixed":
            node["size"] = self.random.randint(1, 2)
        else:
            node["fields"] = [self.field(name, depth, names) for name in self.random.sample(["x", "y", "z"], self.random.randint(0, 3))]
        return node

    def field(self, name, depth, names):
        field = {"name": name, "type": self.schema(depth - 1, names)}
        if field["type"] in ("int", "long") and self.random.random() < 0.5:
            field["default"] = 0
        if self.random.random() < 0.2:
            field["aliases"] = [self.random.choice(["x", "y", "z"])]
        return field

    def changed(self, schema):
        """The schema with one random change."""
        if isinstance(schema, str):
            return self.random.choice(["int", "long", "double", "string", "bytes", schema])
        if isinstance(schema, list):
            return self.changed_union(schema)
        kind = schema["type"]
        if kind in ("array", "map"):
            key = "items" if kind == "array" else "values"
            schema[key] = self.changed(schema[key])
        elif kind == "enum":
            schema["symbols"] = self.random.sample(["X", "Y", "Z"], 2)
            schema.pop("default", None)
        elif kind == "fixed":
            schema["size"] = 2
        else:
            self.change_fields(schema)
        return schema

    def changed_union(self, branches):
        if branches and self.random.random() < 0.7:
            at = self.random.randrange(len(branches))
            branches[at] = self.changed(branches[at])
        elif branches:
            branches.pop()
        return branches

    def change_fields(self, record):
        if not record["fields"]:
            record["fields"] = [{"name": "x", "type": "int"}]
            return
        field = self.random.choice(record["fields"])
        if self.random.random() < 0.3:
            record["fields"].remove(field)
        else:
            field["type"] = self.changed(field["type"])
            field.pop("default", None)
