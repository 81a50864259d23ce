"""The settings: one JSON file, which only this command writes."""
import dataclasses
import json
import re
from pathlib import Path

from .faults import Failed, Refused

NAME = re.compile(r"[a-z0-9]([a-z0-9.-]{0,251}[a-z0-9])?|\[[0-9a-f:.]+\]")
ORIGIN = re.compile(r"https?://[a-z0-9.-]+(:[0-9]{1,5})?")
USER = re.compile(r"[A-Za-z0-9][A-Za-z0-9._@-]{0,63}")
PREFIX = re.compile(r"[A-Za-z0-9._-]{1,255}|\*")
ROLES = ("read", "register", "admin")


@dataclasses.dataclass
class Settings:
    """`names` are those that clients use, without ports. TLS is on if there is a certificate. `users` has each user's role and
    prefix."""

    registry: str = "default"
    registry_port: int = 8081
    local_port: int = 8080
    names: list[str] = dataclasses.field(default_factory=list)
    port: int = 443
    certificate: str = ""
    key: str = ""
    origins: list[str] = dataclasses.field(default_factory=list)
    rate: int = 200
    gateway: bool = True
    page: bool = True
    users: dict[str, dict[str, str]] = dataclasses.field(default_factory=dict)

    @classmethod
    def load(cls, file: Path) -> "Settings":
        """The settings of the file. Without the file: nginx listens on loopback only, and there are no users."""
        try:
            return cls(**json.loads(file.read_text(encoding="utf-8")))
        except FileNotFoundError:
            return cls()
        except (ValueError, TypeError, OSError) as fault:
            raise Failed(f"{file} can't be read: {fault}") from None

    def text(self) -> str:
        return json.dumps(dataclasses.asdict(self), indent=1) + "\n"

    def check(self) -> None:
        """Raises Refused if a value isn't valid. Other machines are served only with TLS, a name and an admin."""
        for port in self.registry_port, self.local_port, self.port:
            if not 1 <= port <= 65535:
                raise Refused(f"{port} is no port")
        if words := {"default", "hostnames", "include", "volatile"} & set(self.names):
            raise Refused(f"{words.pop()!r} is a word of nginx, and can't be a name")
        for what, pattern, values in ("name", NAME, self.names), ("origin", ORIGIN, self.origins), ("registry", NAME, [self.registry]):
            for value in values:
                if not pattern.fullmatch(value):
                    raise Refused(f"{value!r} is no {what}; write it in lower case, without a path")
        if not 1 <= self.rate <= 1_000_000:
            raise Refused(f"{self.rate} is no rate of requests a second")
        for user, access in self.users.items():
            check_user(user, access)
        if self.certificate:
            self.check_for_others()

    def check_for_others(self) -> None:
        for file in self.certificate, self.key:
            if not re.fullmatch(r"/[^\s\"'{};$\\]+", file) or not Path(file).is_file():
                raise Refused(f"there is no file {file!r}; name the certificate and its key by absolute paths")
        if not self.names:
            raise Refused("other machines need a name: --name registry.example.org")
        if not any(access["role"] == "admin" for access in self.users.values()):
            raise Refused("other machines are served only if there is a user with the role admin")


def check_user(user: str, access: dict[str, str]) -> None:
    if not USER.fullmatch(user):
        raise Refused(f"{user!r} is no user's name: use letters, digits, `.`, `_`, `@` and `-`")
    if access["role"] not in ROLES:
        raise Refused(f"{access['role']!r} is no role: there are {', '.join(ROLES)}")
    if (access["role"] == "register") != bool(access["prefix"]):
        raise Refused("the role register needs a prefix, such as `team-a.` or `*` for all subjects; other roles have none")
    if access["prefix"] and not PREFIX.fullmatch(access["prefix"]):
        raise Refused(f"{access['prefix']!r} is no prefix: use letters, digits, `.`, `_` and `-`, or `*` for all subjects")
