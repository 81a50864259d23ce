"""Changes the key of nginx's cache of schemas, after ids got other schemas."""

import re
import subprocess
from pathlib import Path

from .files import write_text
from .places import Place

KEY = re.compile(r"(map\s+\"\"\s+\$registry_cache_key\s*\{[^}]*?default\s+)([^;\s]+)(;)")


def text_of(file: Path) -> str:
    """The text, or nothing if it isn't UTF-8."""
    try:
        return file.read_text(encoding="utf-8")
    except UnicodeDecodeError:
        return ""


def configurations(place: Place) -> list[tuple[Path, str]]:
    """nginx's files that set the key. They are root's."""
    texts = [(file, text_of(file)) for file in sorted((place.root / "etc/nginx/conf.d").glob("*.conf"))]
    return [(file, text) for file, text in texts if KEY.search(text)]


def nginx(*arguments: str) -> bool:
    """Runs nginx. False if it fails or isn't installed."""
    try:
        return subprocess.run(["nginx", *arguments], capture_output=True).returncode == 0
    except FileNotFoundError:
        return False


def change_key(place: Place, value: str) -> str:
    """Sets the key and reloads nginx, or says what a person has to do."""
    found = configurations(place)
    if not found:
        return "nginx: no file in /etc/nginx/conf.d sets $registry_cache_key. If a cache is in front of this registry, empty it"
    for file, text in found:
        write_text(file, KEY.sub(lambda match: match[1] + value + match[3], text))
    if nginx("-t") and nginx("-s", "reload"):
        return f"nginx has a new cache key, {value}"
    for file, text in found:
        write_text(file, text)
    return "nginx: its configuration fails `nginx -t`, or it doesn't run. Change $registry_cache_key, and reload it"
