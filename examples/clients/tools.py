#!/usr/bin/env python3
"""Sends the calls of tools through the gateway, and checks that each gets a response that the tool can use.

    python3 examples/clients/tools.py GATEWAY [TOOL]..     default: all tools. The script uses the subject tools-orders

The tools weren't run. These are the calls that we know from their public documentation and source. The calls in REFUSED have no
truthful response: avroreg has no such write, or no such thing.
"""
import sys

from facts import Registry

FIRST = '{"type":"record","name":"Order","fields":[{"name":"id","type":"long"}]}'
SECOND = '{"type":"record","name":"Order","fields":[{"name":"id","type":"long"},{"name":"note","type":"string","default":""}]}'
INCOMPATIBLE = '{"type":"record","name":"Order","fields":[{"name":"id","type":"long"},{"name":"total","type":"double"}]}'
GOOD = {"schema": SECOND}
VERSIONS = "/subjects/tools-orders/versions"
CHECK = f"/compatibility{VERSIONS}"

TOOLS = {
    "load balancers": [("GET", "/"), ("HEAD", "/"), ("HEAD", "/subjects"), ("GET", "/subjects/")],
    "Maven plugin": [("POST", f"{CHECK}/?normalize=false&verbose=true", GOOD), ("POST", f"{CHECK}/latest?verbose=true", GOOD)],
    "AKHQ": [("GET", "/subjects"), ("GET", f"{VERSIONS}/latest"), ("GET", "/schemas/ids/{id}/subjects"), ("GET", "/config/tools-orders?defaultToGlobal=true"),
             ("POST", f"{CHECK}/latest", GOOD)],
    "Redpanda Console": [("GET", "/subjects?deleted=true"), ("GET", "/schemas/types"), ("GET", "/mode"), ("GET", "/config"), ("GET", "/contexts"),
                         ("GET", f"{VERSIONS}/2/referencedby"), ("GET", "/schemas/ids/{id}/subjects"), ("GET", "/schemas?deleted=true"),
                         ("POST", f"{CHECK}/latest?verbose=true", GOOD)],
    "kafka-ui": [("GET", "/subjects?subjectPrefix=&deleted=false"), ("GET", f"{VERSIONS}/latest"), ("GET", "/config/tools-orders?defaultToGlobal=true"),
                 ("POST", f"{CHECK}/latest", GOOD)],
    "Terraform providers": [("POST", VERSIONS, GOOD), ("POST", "/subjects/tools-orders", GOOD), ("GET", f"{VERSIONS}/latest"), ("GET", f"{VERSIONS}/-1"),
                            ("PUT", "/config/tools-orders", {"compatibility": "FULL"}), ("PUT", "/mode/tools-orders", {"mode": "READWRITE"}),
                            ("GET", "/schemas/ids/{id}/schema")],
    "Confluent CLI": [("GET", "/subjects?subjectPrefix=:*:&deleted=false"), ("GET", "/schemas?subjectPrefix=tools&latestOnly=false&deleted=false")],
}
REFUSED = {
    405: [("DELETE", "/config/tools-orders"), ("DELETE", "/config"), ("DELETE", "/mode"), ("DELETE", "/mode/tools-orders")],
    404: [("GET", "/v1/metadata/id"), ("GET", "/v1/metadata/version"), ("GET", "/subjects/tools-orders/metadata?key=a&value=b"), ("GET", "/exporters"),
          ("GET", "/schemas/guids/x")],
    422: [("PUT", "/mode", {"mode": "IMPORT"}), ("POST", VERSIONS, {"schema": "{}", "schemaType": "JSON"}), ("POST", VERSIONS, {"schema": FIRST, "id": 7})],
}


def gate(registry, path):
    """The verdicts of the Maven plugin, which accepts a schema if there are no messages, for a compatible and an incompatible schema."""
    return [not registry.ask("POST", path, {"schema": schema})[1]["messages"] for schema in (SECOND, INCOMPATIBLE)]


def main():
    registry, chosen = Registry(sys.argv[1]), sys.argv[2:] or TOOLS
    for schema in FIRST, SECOND:
        status, found = registry.ask("POST", VERSIONS, {"schema": schema})
        assert status == 200, found
    for version in ("/latest", "/-1", "/2", "/", "") if "Maven plugin" in chosen else ():
        assert gate(registry, f"{CHECK}{version}?normalize=false&verbose=true") == [True, False], version
    for tool in chosen:
        for method, path, *body in TOOLS[tool]:
            status, response = registry.ask(method, path.replace("{id}", str(found["id"])), *body)
            assert status == 200, (tool, method, path, status, response)
        print(f"{tool}: {len(TOOLS[tool])} calls get 200")
    for wanted, calls in REFUSED.items():
        for call in calls:
            status, found = registry.ask(*call)
            assert status == wanted, (call, status, found)
    print(f"{sum(map(len, REFUSED.values()))} calls without a truthful response: {', '.join(map(str, REFUSED))}")


if __name__ == "__main__":
    main()
