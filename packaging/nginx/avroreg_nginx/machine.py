"""This machine's files of nginx, and nginx itself. Files are changed together: if nginx refuses them, all are put back."""
import contextlib
import fcntl
import grp
import os
import re
import subprocess
import tempfile
from pathlib import Path

from . import configuration, passwords
from .faults import Failed, Refused
from .settings import Settings

SETTINGS = Path(f"{configuration.FOLDER}/settings.json")
ROLES = Path(f"{configuration.FOLDER}/avroreg-roles.conf")
USERS = Path(f"{configuration.FOLDER}/avroreg.users")
SERVED = Path("/etc/nginx/conf.d/avroreg.conf")
NGINX = Path("/etc/nginx/nginx.conf")
NJS = Path("/etc/nginx/modules-enabled/50-mod-http-js.conf")
IPV6 = Path("/proc/net/if_inet6")
TEMPLATE = Path("/usr/share/avroreg-nginx/avroreg.conf")
CONNECTIONS = 4096  # of a worker: a client needs two, and slow clients hold some
DESCRIPTORS = 4 * CONNECTIONS


def read(file: Path) -> str:
    """The text of a file, or nothing if there is no file."""
    try:
        return file.read_text(encoding="utf-8")
    except FileNotFoundError:
        return ""


@contextlib.contextmanager
def lock():
    """One command at a time."""
    os.makedirs(configuration.FOLDER, exist_ok=True)
    with open(f"{configuration.FOLDER}/.lock", "w", encoding="ascii") as file:
        try:
            fcntl.flock(file, fcntl.LOCK_EX | fcntl.LOCK_NB)
        except BlockingIOError:
            raise Refused("another avroreg-nginx runs") from None
        yield


def put(file: Path, text: str | None) -> None:
    """Replaces a file, or removes it. nginx's workers read the file of users, and others can't."""
    if text is None:
        file.unlink(missing_ok=True)
        return
    with tempfile.NamedTemporaryFile("w", dir=file.parent, prefix=f".{file.name}.", encoding="utf-8", delete=False) as draft:
        draft.write(text)
        draft.flush()
        os.fsync(draft.fileno())
        os.fchmod(draft.fileno(), 0o640 if file == USERS else 0o644)
        if file == USERS:
            os.fchown(draft.fileno(), 0, grp.getgrnam("www-data").gr_gid)
    os.replace(draft.name, file)


def load() -> Settings:
    """The settings. avroreg's port is the one that nginx has now."""
    settings = Settings.load(SETTINGS)
    settings.registry_port = configuration.registry_port_of(read(SERVED)) or settings.registry_port
    return settings


def files_of(settings: Settings, hashes: dict[str, str], cache_key: str) -> dict[Path, str | None]:
    """The text of each file for these settings. A file of nginx that somebody else wrote stays."""
    if SERVED.exists() and not read(SERVED).startswith(configuration.HEAD):
        raise Refused(f"avroreg-nginx didn't write {SERVED}; move it away, then run avroreg-nginx apply")
    served = configuration.render(read(TEMPLATE), settings, {"njs": NJS.exists(), "ipv6": IPV6.exists()}, cache_key)
    return {SETTINGS: settings.text(), ROLES: configuration.roles(settings), USERS: passwords.text_of(hashes) if hashes else None, SERVED: served}


def more_connections() -> dict[Path, str | None]:
    """nginx's main file with enough connections. Otherwise some hundred clients that send half a head keep out all others."""
    text = read(NGINX)
    raised = re.sub(r"(\bworker_connections\s+)([0-9]+)(;)", lambda found: found[1] + str(max(int(found[2]), CONNECTIONS)) + found[3], text)
    if not re.search(r"^\s*worker_rlimit_nofile\b", text, re.MULTILINE):
        raised = re.sub(r"^(\s*worker_processes\b.*\n)", rf"\1worker_rlimit_nofile {DESCRIPTORS};\n", raised, count=1, flags=re.MULTILINE)
    return {NGINX: raised} if raised != text else {}


def run_nginx(*arguments: str) -> str | None:
    """Runs nginx. Returns its messages if it fails."""
    try:
        ended = subprocess.run(["/usr/sbin/nginx", *arguments], capture_output=True, text=True)
    except OSError as fault:
        return str(fault)
    return ended.stderr.strip() or f"status {ended.returncode}" if ended.returncode else None


def is_running() -> bool:
    pid = read(Path("/run/nginx.pid")).strip()
    return pid.isdigit() and Path(f"/proc/{pid}").exists()


def change(files: dict[Path, str | None]) -> None:
    """Replaces the files, and lets nginx read them. If nginx refuses them, all are as before."""
    before = {file: read(file) if file.exists() else None for file in files}
    for file, text in files.items():
        put(file, text)
    fault = run_nginx("-t", "-q")
    if not fault and is_running():
        fault = run_nginx("-s", "reload")
    if fault:
        for file, text in before.items():
            put(file, text)
        raise Failed(f"nginx refused the configuration, so it is as before: {fault}")
