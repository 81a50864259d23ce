"""Run the command that copies backups to another machine, as root: AVROREG_AFTER_BACKUP in the settings.

The command is a line for sh. It gets the newest backup, its record, and a tar of the settings, of
nginx's files with users and roles, and of nginx's log since the backup before, as AVROREG_BACKUP,
AVROREG_RECORD and AVROREG_SETTINGS. If it fails, this fails too.
"""

import datetime
import io
import os
import re
import subprocess
import tarfile
import time
from pathlib import Path

from . import archive, nginx_log
from .files import read_json, sync_folder, write_json
from .output import DONE, ERROR, Stop
from .places import Place

NAME = re.compile(r"registry-[0-9TZ-]+\.db")
NGINX_FILES = ("nginx/conf.d/avroreg*.conf", "nginx/avroreg*", "avroreg-nginx/[!.]*")
KEPT_TARS = 3
LOG_BYTES = 256 << 20


def add(_parser) -> None:
    pass


def last_of(place: Place) -> dict | None:
    """What the last run of the command was: its time, the backup, and the status; None before the first one."""
    try:
        return read_json(place.state / "offsite.json")
    except (OSError, ValueError):
        return None


def log_lines(place: Place, since: float) -> bytes:
    """nginx's log from the first line that can be newer than the backup before."""
    lines, is_newer, size = [], False, 0
    for file in nginx_log.rotated(place.access_log):
        for line in nginx_log.lines_of(file):
            entry = nginx_log.entry_of(line)
            is_newer = is_newer or entry is not None and entry.time.timestamp() >= since - nginx_log.SLACK.total_seconds()
            if is_newer and size < LOG_BYTES:
                lines.append(line.encode())
                size += len(lines[-1])
    return b"".join(lines)


def save_settings(place: Place, since: float) -> Path:
    """Writes the tar, for root only, and removes old ones."""
    target = place.state / time.strftime("settings-%Y%m%dT%H%M%SZ.tar", time.gmtime())
    target.unlink(missing_ok=True)
    descriptor = os.open(target, os.O_WRONLY | os.O_CREAT | os.O_EXCL | os.O_NOFOLLOW, 0o600)
    with open(descriptor, "wb") as file, tarfile.open(fileobj=file, mode="w") as tar:
        found = [place.settings_file, *(path for pattern in NGINX_FILES for path in sorted((place.root / "etc").glob(pattern)))]
        for path in found:
            if path.is_file():
                tar.add(path, str(path.relative_to(place.root)))
        log = log_lines(place, since)
        info = tarfile.TarInfo("avroreg.log")
        info.size, info.mode, info.mtime = len(log), 0o600, time.time()
        tar.addfile(info, io.BytesIO(log))
        file.flush()
        os.fsync(descriptor)
    sync_folder(place.state)
    for old in sorted(place.state.glob("settings-*.tar"), key=lambda path: path.stat().st_mtime)[:-KEPT_TARS]:
        old.unlink()
    return target


def newest_of(place: Place) -> tuple[str, float]:
    """The newest backup's name, and the time of the one before it."""
    found = place.hands(archive.listed, folder=place.backups)
    name = found["newest"]
    if name is None or not NAME.fullmatch(name):
        raise Stop(ERROR, "there is no good backup to copy", "avroreg-admin backup")
    times = [record["time"] for record in found["records"] if record["file"] != name]
    return name, float(times[-1] if times else 0)


def hook(place: Place) -> str:
    """Runs the command. Returns a text, which is empty if the settings name none."""
    command = place.settings.after_backup
    if not command:
        return ""
    name, before = newest_of(place)
    backup = place.backups / name
    names = {"AVROREG_BACKUP": str(backup), "AVROREG_RECORD": str(backup.with_suffix(".json")), "AVROREG_SETTINGS": str(save_settings(place, before))}
    ran = subprocess.run(["/bin/sh", "-c", command], stdin=subprocess.DEVNULL, capture_output=True, text=True, errors="replace", env=os.environ | names)
    said = " ".join((ran.stdout + ran.stderr).split())[:300]
    now = {"time": time.time(), "file": name, "status": ran.returncode, "said": said}
    last = last_of(place) or {}
    write_json(place.state / "offsite.json", now | {"good": now["time"] if ran.returncode == 0 else last.get("good"),
                                                    "good_file": name if ran.returncode == 0 else last.get("good_file")}, 0o644)
    if ran.returncode != 0:
        raise Stop(ERROR, f"AVROREG_AFTER_BACKUP ended with status {ran.returncode}: {said}", f"see the settings in {place.settings_file}")
    return f"copied {name} by AVROREG_AFTER_BACKUP"


def run(context) -> int:
    if text := hook(context.place):
        context.output.ok(text)
    return DONE


def shown(place: Place) -> str:
    """When the last good copy was, for `status` and `backups`."""
    last = last_of(place)
    if last is None or not last.get("good"):
        return "never"
    return datetime.datetime.fromtimestamp(last["good"], datetime.timezone.utc).strftime("%Y-%m-%d %H:%M") + f" ({last['good_file']})"
