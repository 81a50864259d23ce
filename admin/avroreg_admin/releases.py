"""What an upgrade replaces: the Debian package of this machine, or the image of a container."""

import subprocess
from pathlib import Path

from . import debian, program, settings
from .output import ERROR, NO, Stop


class Package:
    def installed(self) -> str | None:
        return debian.installed()

    def is_installed(self, version: str) -> bool:
        return debian.is_configured(version)

    def install(self, file: str) -> None:
        debian.install(Path(file))

    def program_of(self, file: str, folder: str) -> str:
        return debian.program_of(Path(file), folder)

    def migrate(self, place) -> str:
        return place.hands(program.migrate, program=place.program, database=place.database)


class Image:
    def __init__(self, place):
        self.place = place

    def installed(self) -> str | None:
        return self.place.settings.image

    def is_installed(self, image: str) -> bool:
        return self.place.settings.image == image

    def install(self, image: str) -> None:
        check_image(image)
        settings.change(self.place.settings_file, {"IMAGE": image})

    def program_of(self, image: str, folder: str) -> str:
        """Copies the image's program to this folder."""
        made = subprocess.run(["podman", "create", "--pull", "never", image], capture_output=True, text=True)
        target = str(Path(folder, "avroreg"))
        copied = subprocess.run(["podman", "cp", f"{made.stdout.strip()}:/usr/bin/avroreg", target], capture_output=True, text=True)
        subprocess.run(["podman", "rm", "-f", made.stdout.strip()], capture_output=True)
        if copied.returncode != 0:
            raise Stop(ERROR, f"podman copies no program out of {image}: {' '.join((made.stderr + copied.stderr).split())}")
        return target

    def migrate(self, place) -> str:
        """By the program in the image, which may be of another release than the host's."""
        uid, gid = place.owner
        result = subprocess.run(["podman", "run", "--rm", "--pull", "never", "--network", "none", "--cgroups=disabled", "--read-only", "--cap-drop", "all",
                                 "--user", f"{uid}:{gid}", "--volume", f"{place.folder}:/var/lib/avroreg", place.settings.image, "migrate", "--db",
                                 f"/var/lib/avroreg/{place.database.name}"], capture_output=True, text=True)
        if result.returncode != 0:
            raise Stop(ERROR, f"avroreg migrate failed on {place.database}: {' '.join(result.stderr.split())}")
        return " ".join(result.stdout.split())


def check_image(image: str) -> None:
    if subprocess.run(["podman", "image", "exists", image], capture_output=True).returncode != 0:
        raise Stop(NO, f"podman has no image {image}: podman load -i FILE")
