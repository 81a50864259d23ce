"""Operations on one node: its database, its position, its program. They run on that node, as root."""
import asyncio
import json
import os
import pathlib
import shutil
import subprocess

from operations.cluster import Cluster, Failed
from operations.files import File, check_parents
from operations.fingerprint import fingerprint
from relay import log, position
from relay.config import Config
from relay.faults import Misconfigured
from relay.position import Position

SOURCES = pathlib.Path(__file__).resolve().parents[3] / "admin" / "avroreg-admin"
ADMIN = SOURCES if SOURCES.exists() else pathlib.Path("/usr/bin/avroreg-admin")


class Node:
    def __init__(self, config: Config) -> None:
        self.config, self.cluster = config, Cluster(config)

    # --- Services and files

    def run(self, *words: str) -> None:
        done = subprocess.run(words, capture_output=True, text=True)
        if done.returncode:
            raise Failed(f"{' '.join(words)}: {done.stderr.strip() or done.stdout.strip() or done.returncode}")

    def stop(self) -> None:
        """Stops the relay first, so that its position isn't newer than the database."""
        self.run(*self.config.services.stop_relay)
        self.run(*self.config.services.stop_registry)

    def start(self) -> None:
        self.run(*self.config.services.start_registry)
        self.run(*self.config.services.start_relay)

    def restart_relay(self) -> None:
        self.run(*self.config.services.stop_relay)
        self.run(*self.config.services.start_relay)

    @property
    def database(self) -> File:
        return File(self.config.database)

    @property
    def position(self) -> File:
        return File(self.config.position)

    def saved_position(self) -> Position:
        text = self.position.read()
        try:
            return position.parse(text) if text else Position()
        except ValueError as fault:
            raise Misconfigured(f"{self.config.position}: {fault}; remove it, or restore this node from a backup") from fault

    def merge(self, database: File) -> None:
        """Makes avroreg copy the write-ahead log into the database. Nothing else has the file open."""
        if database.next_to("-wal").exists():
            database.run(str(self.config.program), "list", "--db", str(database.path), "subjects")

    def install(self, new: File, at: Position) -> None:
        """Puts a database and its position in place, while the services are stopped. A new database lies next to the old one.

        It removes the old position first. So after a crash, no position is newer than its database.
        """
        database, old, prepared = self.database, self.position, self.position.next_to(".restored")
        prepared.write(position.text_of(at))
        old.remove()
        if new.path != database.path:
            database.next_to("-wal").remove()
            new.rename(database)
        os.sync()
        prepared.rename(old)

    # --- Operations

    async def backup(self, folder: pathlib.Path) -> None:
        """Copies the position, and after it the database, while the node runs.

        So the position is never newer than the database. If it is older, the relay sends some entries again, and avroreg knows their retry keys.
        """
        folder = folder.absolute()
        check_parents(folder)
        folder.mkdir(mode=0o700)
        copy = File(folder / "registry.db")
        try:
            at = self.saved_position()
            self.run(str(ADMIN), "folder", "backup", str(self.database.path), str(copy.path), "--program", str(self.config.program))
        except (Failed, Misconfigured):
            shutil.rmtree(folder)
            raise
        position.save(folder / "position", at)
        facts = {"node": self.config.node, "revision": at.revision, "sha256": copy.digest()}
        File(folder / "backup.json").write(json.dumps(facts).encode())
        print(f"backup of {self.config.node} at revision {at.revision}: {folder}")

    async def restore(self, folder: pathlib.Path) -> None:
        """Restores a backup of any node of this cluster. The relay applies the later entries.

        The copy is made while this node still runs. If there is no room for it, the node goes on.
        """
        at = position.parse(File(folder / "position").read())
        facts = json.loads(File(folder / "backup.json").read())
        base, trimmed = await self.cluster.log.base(), await self.cluster.log.trimmed()
        if at.log not in ("", await self.cluster.log.name()):
            raise Failed("the backup is another cluster's; to start a new cluster from it: avroreg-cluster adopt")
        if at.revision < max(trimmed, base.revision if base else 0):
            raise Failed(f"the log has no entries from revision {at.revision} on: take a newer backup")
        new = self.database.next_to(".new")
        new.copy_from(File(folder / "registry.db"))
        try:
            if new.digest() != facts["sha256"] or facts["revision"] != at.revision:
                raise Failed(f"{folder} was changed after it was made")
            self.replace_database(new, at)
        finally:
            new.remove()
        print(f"{self.config.node} goes on from revision {at.revision}")

    def replace_database(self, new: File, at: Position) -> None:
        try:
            self.stop()
            self.install(new, at)
        finally:
            self.start()

    async def adopt(self, path: pathlib.Path) -> None:
        """Starts this node of a new cluster from a database: that of a single avroreg, or of a backup. Each node adopts the
        same file. The log must be empty, since its entries come after the file."""
        source, database, new = File(path), self.database, self.database.next_to(".new")
        is_in_place = source.path == database.path
        try:
            if not is_in_place:
                self.merge(source)
                new.copy_from(source)
            self.stop()
            if is_in_place:
                self.merge(database)
            adopted = database if is_in_place else new
            base = await self.cluster.begin_from(adopted.digest())
            self.install(adopted, Position(await self.cluster.log.name(), base.revision, base.digest))
        finally:
            new.remove()
            self.start()
        print(f"{self.config.node} began from {path}, digest {base.digest}")

    async def upgrade(self, program: pathlib.Path, is_migrated: bool) -> None:
        """Replaces this node's avroreg. Writes must be paused on all nodes, so that two versions never apply the same entry. If the
        new program can't be installed, or can't migrate the database, the old one runs on."""
        if not program.is_file():
            raise Failed(f"{program} is no file")
        if not await self.cluster.log.value(log.PAUSE):
            raise Failed("writes aren't paused: avroreg-cluster pause")
        newest = await self.cluster.log.newest()
        self.run(*self.config.services.stop_relay)
        at = self.saved_position()
        if at.revision < newest:
            self.run(*self.config.services.start_relay)
            raise Failed(f"this node is at revision {at.revision}, and the log at {newest}")
        self.run(*self.config.services.stop_registry)
        try:
            database = self.database
            self.merge(database)
            database.next_to(".before-upgrade").copy_from(database)
            new = self.config.program.with_name(self.config.program.name + ".new")
            shutil.copyfile(program, new)
            os.chmod(new, 0o755)
            shutil.copyfile(self.config.program, self.config.program.with_name(self.config.program.name + ".before-upgrade"))
            if is_migrated:
                database.run(str(new), "migrate", "--db", str(database.path))
            os.replace(new, self.config.program)
        finally:
            self.start()
        print(f"{self.config.node} has the new program, at revision {at.revision}")

    async def show_fingerprint(self) -> None:
        """Prints the revision, and a hash of all responses of this node's avroreg to reads."""
        print(*await asyncio.to_thread(fingerprint, self.config))
