"""Move the registry to a larger disk, in two halves.

Mount the new disk at a folder of root, such as /mnt, and run `avroreg-admin move /mnt`. It copies the
registry there and stops. Then mount the disk at the registry's folder, as the command says, and run
`avroreg-admin continue`. The old files stay in a folder next to it.
"""

import errno
import filecmp
import os
import shutil
import stat
import subprocess
from pathlib import Path

from . import hot_copy, init, job, marking
from .files import remove, sync_folder, write_json, write_text
from .hands import task
from .output import DONE, NO, Stop

DROP_IN = "mount.conf"


def add(parser) -> None:
    parser.add_argument("disk", metavar="DIR", type=Path, help="where the new disk is mounted now")


def run(context) -> int:
    place, disk = context.place, context.options.disk.absolute()
    check(place, disk)
    needed = sum(size for _, size in place.hands(files_of, folder=place.folder))
    if shutil.disk_usage(disk).free < needed:
        raise Stop(NO, f"{disk} has {shutil.disk_usage(disk).free >> 20} MB free, and {needed >> 20} MB are needed")
    context.agree([("from", f"{place.folder}, {needed >> 20} MB"), ("to", f"the disk at {disk}, {shutil.disk_usage(disk).free >> 20} MB free"),
                   ("offline", "from now until you have mounted the disk and run `avroreg-admin continue`"), ("old files", f"kept in {aside_of(place, 'ID')}")])
    facts = {"disk": str(disk), "was_running": place.process() is not None, "was_paused": place.paused_file.exists()}
    opened = job.new_job(place, "move", context.person, facts)
    job.advance(place, opened, steps(context, opened), context.output)
    return DONE


def check(place, disk: Path) -> None:
    """The disk is a mount point of root, other than the registry's, and empty."""
    if not os.path.ismount(disk) or os.path.islink(disk):
        raise Stop(NO, f"{disk} is no mount point: mount the new disk there")
    if os.stat(disk).st_dev == os.stat(place.folder).st_dev:
        raise Stop(NO, f"{disk} is the disk that the registry is on")
    if os.stat(disk).st_uid not in (0, place.owner[0]) or set(os.listdir(disk)) - {"lost+found"}:
        raise Stop(NO, f"{disk} isn't an empty disk of root")


def aside_of(place, job_id: str) -> Path:
    return place.folder.with_name(f"{place.folder.name}-before-{job_id}")


@task
def files_of(folder: str) -> list:
    """The files of the registry's folder with their sizes, by their paths in it."""
    found = []
    for at, _, names in os.walk(folder):
        for name in names:
            path = os.path.join(at, name)
            if stat.S_ISREG(os.lstat(path).st_mode):
                found.append((os.path.relpath(path, folder), os.path.getsize(path)))
    return sorted(found)


@task
def copy_all(folder: str, target: str) -> int:
    """Copies every file, compares every byte, and returns how many bytes. A killed run begins again."""
    total = 0
    for name, size in files_of(folder):
        source, copy = os.path.join(folder, name), os.path.join(target, name)
        os.makedirs(os.path.dirname(copy), mode=0o700, exist_ok=True)
        Path(copy).unlink(missing_ok=True)
        hot_copy.copy_file(source, copy)
        if not filecmp.cmp(source, copy, shallow=False):
            raise OSError(errno.EIO, "the copy differs", copy)
        total += size
    sync_folder(target)
    return total


@task
def remove_all(folder: str, target: str) -> None:
    """Removes the copies of the folder's files, and their empty folders."""
    for name, _ in files_of(folder):
        Path(target, name).unlink(missing_ok=True)
    for at, _, _ in os.walk(target, topdown=False):
        if at != target and not os.listdir(at):
            os.rmdir(at)


@task
def is_copied(folder: str, target: str) -> bool:
    """Whether the target has every file, with its size."""
    return set(map(tuple, files_of(folder))) <= set(map(tuple, files_of(target)))


def give_to_user(place, disk: Path) -> None:
    """The root folder of the new disk belongs to the registry's user, as StateDirectory makes it."""
    descriptor = os.open(disk, os.O_RDONLY | os.O_DIRECTORY | os.O_NOFOLLOW)
    try:
        os.fchown(descriptor, *place.owner)
        os.fchmod(descriptor, 0o700)
    finally:
        os.close(descriptor)


def device_of(folder: Path) -> str:
    """The device that is mounted at this folder."""
    return subprocess.run(["findmnt", "-n", "-o", "SOURCE", "--mountpoint", str(folder)], capture_output=True, text=True).stdout.strip() or "DEVICE"


class Move:
    def __init__(self, context, opened: job.Job):
        self.context, self.place, self.job, self.facts = context, context.place, opened, opened.facts
        self.disk, self.aside = Path(opened.facts["disk"]), aside_of(context.place, opened.id)
        self.drop_in = self.place.root / f"etc/systemd/system/{self.place.unit}.service.d" / DROP_IN

    def steps(self) -> list[job.Step]:
        return [
            job.Step("stop", self.stop, lambda: self.is_mounted() or self.place.process() is None and self.place.paused_file.exists(), undo=self.start_again, ignores_hangup=True),
            job.Step("copy", self.copy, lambda: self.aside.is_dir(), undo=self.remove_copies, ignores_hangup=True),
            job.Step("old files", self.put_aside, lambda: self.aside.is_dir() and self.place.folder.is_dir(), undo=self.put_back, ignores_hangup=True),
            job.Step("mount", self.ask_for_mount, self.is_mounted),
            job.Step("mark", self.mark, lambda: self.drop_in.exists() and self.is_marked(), undo=self.refuse_mounted, ignores_hangup=True),
            job.Step("start", self.start, lambda: not self.facts["was_running"] or self.place.process() is not None, ignores_hangup=True),
            job.Step("resume", self.resume, lambda: self.facts["was_paused"] or not self.place.paused_file.exists(), ignores_hangup=True),
        ]

    def stop(self) -> str:
        self.place.run_folder.mkdir(mode=0o755, parents=True, exist_ok=True)
        if not self.place.paused_file.exists():
            write_json(self.place.paused_file, {"reason": f"move {self.job.id}", "person": self.job.person, "since": self.job.begun})
        self.place.stop()
        return "writes are paused, avroreg is stopped"

    def start_again(self) -> None:
        if not self.facts["was_paused"]:
            remove(self.place.paused_file)
        if self.facts["was_running"]:
            self.place.hands(marking.allow, database=self.place.database, job=self.job.id)
            self.place.start()

    def copy(self) -> str:
        give_to_user(self.place, self.disk)
        total = self.place.hands(copy_all, folder=self.place.folder, target=self.disk)
        return f"{total >> 20} MB are on the new disk, and compared"

    def remove_copies(self) -> None:
        """Empties the new disk, so that it can be used again."""
        if os.path.ismount(self.disk):
            self.place.hands(remove_all, folder=self.place.folder, target=self.disk)

    def put_aside(self) -> str:
        if not self.aside.is_dir():
            os.rename(self.place.folder, self.aside)
        init.make_folder(self.place, self.place.folder, 0o700)
        return f"the old files are in {self.aside}"

    def put_back(self) -> None:
        if self.aside.is_dir():
            os.rmdir(self.place.folder)
            os.rename(self.aside, self.place.folder)

    def is_mounted(self) -> bool:
        """Whether the copy is at the registry's folder: it is marked, or it has every file as it was copied."""
        if not self.aside.is_dir() or not os.path.ismount(self.place.folder):
            return False
        return self.has_mark() or self.place.hands(is_copied, folder=self.aside, target=self.place.folder)

    def has_mark(self) -> bool:
        found = self.place.hands(marking.read, database=self.place.database)
        return found is not None and found["job"] == self.job.id

    def ask_for_mount(self) -> str:
        device, folder = device_of(self.disk), self.place.folder
        raise Stop(NO, f"mount the new disk at {folder} now", f"umount {self.disk}", f"add a line for {folder} to /etc/fstab: {device} {folder} ext4 defaults 0 2",
                   f"mount {folder}")

    def is_marked(self) -> bool:
        found = self.place.hands(marking.read, database=self.place.database)
        return found is not None and found["inode"] == os.stat(self.place.database).st_ino and found["job"] == self.job.id

    def mark(self) -> str:
        self.place.hands(marking.put, database=self.place.database, place=self.place.registry["place"], job=self.job.id)
        self.drop_in.parent.mkdir(parents=True, exist_ok=True)
        write_text(self.drop_in, f"# avroreg-admin move\n[Unit]\nRequiresMountsFor={self.place.folder}\n")
        self.place.reload_units()
        return f"{self.place.unit} starts only with its disk"

    def refuse_mounted(self) -> None:
        if self.facts.get("was_served"):
            raise Stop(NO, "avroreg has served the new disk, so programs may have written to it", "avroreg-admin continue")
        if self.is_mounted():
            raise Stop(NO, f"unmount {self.place.folder} first", f"umount {self.place.folder}")

    def start(self) -> str:
        self.facts["was_served"] = True  # noted before: from now on, programs may write
        self.job.save(self.place)
        self.place.start()
        return f"avroreg is up: {self.place.url}"

    def resume(self) -> str:
        remove(self.place.paused_file)
        self.context.output.text(f"Remove {self.aside} when you are sure")
        return "writes resumed"


def steps(context, opened: job.Job) -> list[job.Step]:
    return Move(context, opened).steps()
