"""Debian packages of avroreg: what is in one, which is installed, and installing one."""

import io
import os
import shutil
import subprocess
import tarfile
from dataclasses import dataclass
from pathlib import Path

from .output import ERROR, NO, Stop

NAME = "avroreg"
KEPT = Path("/var/lib/avroreg-admin/packages")
APT_CACHE = Path("/var/cache/apt/archives")
RECORD = "usr/share/avroreg/program"


@dataclass(frozen=True)
class Package:
    file: Path
    version: str
    proved: str  # the record's line


def output_of(*words: str) -> bytes:
    result = subprocess.run(words, capture_output=True)
    if result.returncode != 0:
        raise Stop(ERROR, f"{words[0]} failed: {' '.join(result.stderr.decode(errors='replace').split())[:300]}")
    return result.stdout


def read(file: Path) -> Package:
    """What a package has. Refuses one that isn't avroreg's, or is for another machine."""
    if not file.is_file():
        raise Stop(NO, f"there is no package {file}")
    try:
        fields = output_of("dpkg-deb", "-f", str(file), "Package", "Version", "Architecture").decode().splitlines()
    except Stop:
        raise Stop(NO, f"{file} is no Debian package") from None
    found = dict(line.split(": ", 1) for line in fields)
    if found.get("Package") != NAME or found["Architecture"] != output_of("dpkg", "--print-architecture").decode().strip():
        raise Stop(NO, f"{file} has {found.get('Package')} for {found.get('Architecture')}, not {NAME} for this machine")
    return Package(file.absolute(), found["Version"], proved_of(file))


def proved_of(file: Path) -> str:
    """The line of the package's record that says whether the program was proved."""
    with tarfile.open(fileobj=io.BytesIO(output_of("dpkg-deb", "--fsys-tarfile", str(file)))) as files:
        try:
            record = files.extractfile(f"./{RECORD}").read().decode()
        except (KeyError, AttributeError):
            return "not known: it has no record"
    return next((line.removeprefix("# proved: ") for line in record.splitlines() if line.startswith("# proved: ")), "not known")


def program_of(file: Path, folder: str) -> str:
    """Extracts the package's program to this folder."""
    with tarfile.open(fileobj=io.BytesIO(output_of("dpkg-deb", "--fsys-tarfile", str(file)))) as files:
        try:
            found = files.extractfile("./usr/bin/avroreg").read()
        except (KeyError, AttributeError):
            raise Stop(NO, f"{file} has no program /usr/bin/avroreg") from None
    target = Path(folder, NAME)
    target.write_bytes(found)
    target.chmod(0o755)
    return str(target)


def installed() -> str | None:
    """The installed version, or None: avroreg wasn't installed as a package."""
    result = subprocess.run(["dpkg-query", "-W", "-f", "${Version} ${db:Status-Status}", NAME], capture_output=True, text=True)
    version, _, status = result.stdout.partition(" ")
    return version if result.returncode == 0 and status in ("installed", "unpacked", "half-configured") else None


def is_configured(version: str) -> bool:
    result = subprocess.run(["dpkg-query", "-W", "-f", "${Version} ${db:Status-Status}", NAME], capture_output=True, text=True)
    return result.stdout == f"{version} installed"


def find(version: str) -> Path | None:
    """The package of a version: kept by an upgrade, or in apt's cache."""
    names = [folder / name for folder in (KEPT, APT_CACHE) if folder.is_dir() for name in sorted(os.listdir(folder)) if name.endswith(".deb")]
    for file in names:
        if file.name.startswith(f"{NAME}_{version.replace(':', '%3a')}_"):
            return file
    return None


def keep(package: Package) -> Path:
    """Keeps a copy of the package, for a rollback."""
    KEPT.mkdir(mode=0o755, parents=True, exist_ok=True)
    target = KEPT / f"{NAME}_{package.version.replace(':', '%3a')}_{output_of('dpkg', '--print-architecture').decode().strip()}.deb"
    if package.file != target:
        draft = target.with_suffix(".new")
        shutil.copyfile(package.file, draft)
        os.replace(draft, target)
    return target


def install(file: Path) -> None:
    """Installs it with apt, also if it is older. Settings stay."""
    environment = os.environ | {"DEBIAN_FRONTEND": "noninteractive"}
    result = subprocess.run(["apt-get", "install", "-y", "-q", "--allow-downgrades", "--reinstall", "-o", "Dpkg::Options::=--force-confold", str(file)],
                            capture_output=True, text=True, env=environment)
    if result.returncode != 0:
        lines = [line for line in (result.stdout + result.stderr).splitlines() if line.startswith(("E:", "dpkg:", "avroreg"))]
        raise Stop(ERROR, f"apt-get failed: {' '.join(lines[-3:])[:400] or 'see /var/log/apt/term.log'}")
