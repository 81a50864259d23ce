"""Root's work on files: a full disk, links of another user, modes."""
import os
import pathlib
import shutil
import signal
import subprocess

from trial.large import slow_writer
from trial.local import Cluster, Node
from trial.steps import check, mode
from trial.stuck import Stuck

OTHER_USER = 65534


class Files(Stuck):
    def full_disk(self) -> None:
        """A backup that doesn't fit on the node's disk can't be restored, and the node goes on."""
        if os.geteuid() != 0:
            print("  not tried: a small disk needs root")
            return
        self.tear_down()
        shutil.rmtree(self.cluster.folder, ignore_errors=True)
        self.cluster = Cluster(self.folder / "cluster")
        small = self.folder / "cluster" / "n3"
        small.mkdir(parents=True)
        subprocess.run(["mount", "-t", "tmpfs", "-o", "size=400m", "tmpfs", small], check=True)
        try:
            self.try_full_disk(small)
        finally:
            self.tear_down()
            subprocess.run(["umount", small], check=True)

    def try_full_disk(self, small: pathlib.Path) -> None:
        self.cluster.new(self.program)
        self.cluster.start()
        first, third = self.nodes[0], self.nodes[2]
        for number in range(3):
            self.write(first, "POST", f"/subjects/large{number}/versions", slow_writer(number))
        self.wait_until_equal()
        backup = self.folder / "too-large"
        self.command(first, "backup", backup)
        self.wait_until_equal()
        before = third.process("registry"), third.process("relay")
        free = os.statvfs(small).f_bavail * os.statvfs(small).f_bsize
        with open(small / "filler", "wb") as filler:
            filler.write(bytes(free - (backup / "registry.db").stat().st_size // 2))
        check("No space left" in self.command(third, "restore", backup, fails=True), "a restore on a full disk fails")
        check((third.process("registry"), third.process("relay")) == before, "avroreg and the relay of n3 weren't stopped")
        check(third.position.exists() and not list(small.glob("*.new")), "its position is there, and no copy is left")
        (small / "filler").unlink()
        self.wait_until_equal()
        self.command(third, "restore", backup)
        self.wait_until_equal()

    def links(self) -> None:
        """The user of a service puts links where root writes. Root doesn't follow them, and files of secrets are for their owner only."""
        self.set_up()
        first, second = self.nodes[:2]
        self.register(first, 2)
        self.wait_until_equal()
        backup = self.folder / "for-links"
        self.command(first, "backup", backup)
        found = {it.name: oct(mode(it)) for it in (backup, *backup.iterdir(), first.database, first.position)}
        check(set(found.values()) <= {"0o600", "0o700"}, f"backups, databases and positions are for their owner: {found}")
        self.wait_until_equal()
        if os.geteuid() != 0:
            print("  not tried: another user needs root")
            return
        self.folder.chmod(0o711)
        self.cluster.folder.chmod(0o711)
        os.chown(second.folder, OTHER_USER, OTHER_USER)
        secrets = [self.plant(second, name) for name in ("registry.db.new", "position.new", "position.restored", "registry.db.before-upgrade")]
        self.command(second, "restore", backup)
        self.wait_until_equal()
        self.command(first, "pause")
        self.command(second, "upgrade", self.program.resolve())
        self.command(first, "resume")
        check(all((it.read_bytes(), it.stat().st_uid, mode(it)) == (b"secret", 0, 0o600) for it in secrets), "root doesn't follow the links of a service's user")
        second.end("registry", signal.SIGTERM)
        right = self.put_aside(second, "right")
        secret = self.plant(second, "registry.db")
        check("is a link" in self.command(second, "restore", backup, fails=True), "a database that is such a link is refused")
        check(secret.read_bytes() == b"secret", "its target is unchanged")
        second.database.unlink()
        for path in right.iterdir():
            shutil.move(path, second.folder / path.name)
        second.start("registry")
        os.chown(second.folder, 0, 0)
        self.wait_until_equal()

    def plant(self, node: Node, name: str) -> pathlib.Path:
        """Makes a file of root, and a link to it in the node's folder, as the folder's user."""
        secret = self.folder / f"secret-of-{name}"
        secret.write_text("secret")
        secret.chmod(0o600)
        (node.folder / name).unlink(missing_ok=True)
        words = ["setpriv", f"--reuid={OTHER_USER}", f"--regid={OTHER_USER}", "--clear-groups", "ln", "-s", secret, node.folder / name]
        subprocess.run(words, check=True)
        return secret
