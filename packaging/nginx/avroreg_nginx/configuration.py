"""nginx's configuration from the template, which is examples/nginx/avroreg.conf."""
import re

from .faults import Failed
from .settings import Settings

FOLDER = "/etc/avroreg-nginx"
CACHE_KEY = re.compile(r'(map "" \$registry_cache_key \{\s*default )([^;\s]+)(;)')
LOOPBACK = ("127.0.0.1", "[::1]", "localhost")  # the template has them
REGISTRY_PORT = re.compile(r"upstream avroreg \{\s*server 127\.0\.0\.1:([0-9]+);")
HEAD = "# avroreg-nginx wrote this file, and writes it again: change it by `avroreg-nginx --help`.\n"


def parts_of(settings: Settings, has_njs: bool) -> dict[str, bool]:
    """The marks of the template's parts, and whether each is on."""
    return {"tls": bool(settings.certificate), "users": bool(settings.users), "page": settings.page, "gateway": settings.gateway and has_njs}


def replace(text: str, old: str, new: str) -> str:
    if old not in text:
        raise Failed(f"the template has no {old!r}")
    return text.replace(old, new)


def render(template: str, settings: Settings, machine_has: dict[str, bool], cache_key: str) -> str:
    """The configuration for these settings, on a machine that has `njs` and `ipv6` or not."""
    text = template
    for mark, is_on in parts_of(settings, machine_has["njs"]).items():
        text = text.replace(f"#{mark} ", "") if is_on else re.sub(rf"^ *#{mark} .*\n", "", text, flags=re.MULTILINE)
    for old, new in replacements(settings):
        text = replace(text, old, new)
    if settings.certificate:
        listen = [f"listen {settings.port} ssl;", *([f"listen [::]:{settings.port} ssl;"] if machine_has["ipv6"] else [])]
        text = replace(text, "listen 443 ssl;", "\n    ".join(listen))
        text = replace(text, "/etc/nginx/avroreg.crt", settings.certificate)
        text = replace(text, "/etc/nginx/avroreg.key", settings.key)
    if settings.users:
        text = replace(text, "/etc/nginx/avroreg.users", f"{FOLDER}/avroreg.users")
    return HEAD + CACHE_KEY.sub(lambda found: found[1] + cache_key + found[3], text)


def replacements(settings: Settings) -> list[tuple[str, str]]:
    """What the settings replace in the template."""
    hosts = "".join(f"    {name} 0;\n" for name in settings.names if name not in LOOPBACK)
    origins = "".join(f'    "~^{re.escape(origin)} " 0;\n' for origin in settings.origins)
    return [
        ("127.0.0.1:8081", f"127.0.0.1:{settings.registry_port}"),
        ("listen 127.0.0.1:8080;", f"listen 127.0.0.1:{settings.local_port};"),
        ("include avroreg-roles.conf;", f"include {FOLDER}/avroreg-roles.conf;"),
        ("    # registry.example.org 0;\n", hosts),
        ('    # "~^https://registry\\.example\\.org " 0;  # behind a proxy that ends TLS\n', origins),
        ('server_name "";', " ".join(['server_name ""', *settings.names]) + ";"),
        ("rate=200r/s", f"rate={settings.rate}r/s"),
        ("/run/avroreg/default/", f"/run/avroreg/{settings.registry}/"),
        ("/run/avroreg-admin/default/", f"/run/avroreg-admin/{settings.registry}/"),
    ]


def cache_key_of(text: str) -> str:
    """The key of the cache in a configuration. A restore changes it there, so it is no setting."""
    found = CACHE_KEY.search(text)
    return found[2] if found else "1"


def registry_port_of(text: str) -> int | None:
    """avroreg's port in a configuration. `avroreg-admin port` changes it there."""
    found = REGISTRY_PORT.search(text)
    return int(found[1]) if found else None


def roles(settings: Settings) -> str:
    """The file of roles, as examples/nginx/roles.conf. Without users, everybody is an admin."""
    lines = [HEAD + "map $remote_user $registry_role {", "    default none;", '    "" admin;']
    lines += [f'    "~^{re.escape(user)}$" {access["role"]};' for user, access in sorted(settings.users.items())]
    lines += ["}", "map $remote_user $registry_prefix {", '    default "";']
    lines += [f'    "~^{re.escape(user)}$" "{access["prefix"]}";' for user, access in sorted(settings.users.items()) if access["prefix"]]
    return "\n".join([*lines, "}", ""])
