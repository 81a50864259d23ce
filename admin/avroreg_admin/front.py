"""nginx in front of the registry: whether it is there, and its certificate."""

import re
import subprocess
from datetime import datetime, timezone
from pathlib import Path

from . import pauses
from .places import Place

FOLDERS = ("etc/nginx/conf.d", "etc/nginx/sites-enabled")
CERTIFICATE = re.compile(r"^\s*ssl_certificate\s+\"?([^\s;\"]+)\"?\s*;", re.MULTILINE)


def configurations(place: Place) -> list[str]:
    """nginx's enabled configurations that pause writes of this registry."""
    texts = []
    for folder in FOLDERS:
        for file in sorted((place.root / folder).glob("*")):
            try:
                texts.append(file.read_text(encoding="utf-8", errors="replace"))
            except OSError:
                continue
    name = "/" + str(pauses.watch_file(place).relative_to(place.root))
    return [text for text in texts if name in text]


def is_on(place: Place) -> bool:
    """Whether nginx keeps writes out while the pause file of `watch` exists."""
    return bool(configurations(place))


def certificate_end(place: Place) -> float | None:
    """When the first certificate expires, or None: there is none, or it can't be read."""
    ends = [end for text in configurations(place) for file in CERTIFICATE.findall(text) if (end := end_of(Path(file))) is not None]
    return min(ends, default=None)


def end_of(certificate: Path) -> float | None:
    try:
        printed = subprocess.run(["openssl", "x509", "-enddate", "-noout", "-in", str(certificate)], capture_output=True, text=True)
    except OSError:
        return None
    _, _, end = printed.stdout.strip().partition("=")
    try:
        return datetime.strptime(end, "%b %d %H:%M:%S %Y %Z").replace(tzinfo=timezone.utc).timestamp()
    except ValueError:
        return None
