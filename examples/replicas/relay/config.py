"""The configuration: one TOML file, relay.toml."""
import dataclasses
import pathlib
import re
import tomllib
from typing import Any, NamedTuple

from relay.faults import Misconfigured


class Address(NamedTuple):
    host: str
    port: int

    @classmethod
    def parse(cls, text: str) -> "Address":
        host, colon, port = text.rpartition(":")
        if not (host and colon and re.fullmatch("[0-9]{1,5}", port) and 0 < int(port) < 65536):
            raise Misconfigured(f"{text!r} is not HOST:PORT")
        return cls(host, int(port))


@dataclasses.dataclass(frozen=True)
class Services:
    """The commands that stop and start the services of this node."""

    stop_relay: tuple[str, ...] = ("systemctl", "stop", "avroreg-relay")
    start_relay: tuple[str, ...] = ("systemctl", "start", "avroreg-relay")
    stop_registry: tuple[str, ...] = ("systemctl", "stop", "avroreg")
    start_registry: tuple[str, ...] = ("systemctl", "start", "avroreg")


@dataclasses.dataclass(frozen=True)
class Config:
    node: str
    listen: Address
    admin: Address
    registry: Address
    etcd: pathlib.Path
    position: pathlib.Path
    database: pathlib.Path
    program: pathlib.Path
    local_reads: pathlib.Path = pathlib.Path("/run/avroreg-relay/local-reads")
    patience_seconds: float = 8.0
    idle_seconds: float = 75.0
    failover_seconds: float = 25.0
    max_connections: int = 512
    max_bytes: int = 268435456
    batch_messages: int = 64
    batch_bytes: int = 524288
    log_format: str = "plain"
    services: Services = Services()


CONVERSIONS: dict[type, Any] = {
    Address: lambda value: Address.parse(value),
    pathlib.Path: pathlib.Path,
    str: str,
    int: int,
    float: float,
    Services: lambda value: Services(**{name: tuple(words) for name, words in value.items()}),
}


def load(path: pathlib.Path) -> Config:
    """Reads the file. An unknown name, a missing name and a value of another type are errors."""
    try:
        table = tomllib.loads(path.read_text())
        fields = {field.name: field for field in dataclasses.fields(Config)}
        unknown = table.keys() - fields.keys()
        if unknown:
            raise Misconfigured(f"{path}: unknown names: {', '.join(sorted(unknown))}")
        values = {name: CONVERSIONS[fields[name].type](value) for name, value in table.items()}
        config = Config(**values)
    except (OSError, ValueError, TypeError, AttributeError) as fault:
        raise Misconfigured(f"{path}: {fault}") from fault
    if not re.fullmatch("[A-Za-z0-9._-]{1,64}", config.node):
        raise Misconfigured(f"{path}: node is not a name of letters, digits, '.', '_' and '-'")
    if config.log_format not in ("plain", "json"):
        raise Misconfigured(f"{path}: log_format is neither plain nor json")
    return config
