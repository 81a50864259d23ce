"""Run avroreg in a container of podman. The unit avroreg-container@NAME runs this, after the guard.

The container has the host's network, on which avroreg listens on 127.0.0.1 only, and nothing of the
host but the registry's folder. It stays in the unit's control group.
"""

import os

from .init import GLIBC_TUNABLES
from .output import NO, Stop

INSIDE = "/var/lib/avroreg"


def add(_parser) -> None:
    pass


def run(context) -> int:
    place = context.place
    image = place.settings.image
    if not image:
        raise Stop(NO, f"{place.settings_file} names no AVROREG_IMAGE")
    uid, gid = place.owner
    os.execvp("podman", [
        "podman", "run", "--rm", "--replace", "--name", place.container, "--pull", "never", "--network", "host", "--cgroups=disabled", "--log-driver", "passthrough",
        "--read-only", "--cap-drop", "all", "--security-opt", "no-new-privileges", "--user", f"{uid}:{gid}",
        "--env", f"GLIBC_TUNABLES={GLIBC_TUNABLES}",
        "--volume", f"{place.folder}:{INSIDE}", image, "serve", "--db", f"{INSIDE}/{place.database.name}", "--port", str(place.settings.port)])
