"""The program avroreg-relay."""
import argparse
import asyncio
import logging
import os
import pathlib
import signal
import socket
import sys

from relay import config, logs
from relay.config import Config
from relay.faults import Misconfigured
from relay.replica import Replica
from relay.server import Server

CONFIG = pathlib.Path("/etc/avroreg/relay.toml")
DESCRIPTION = """The front of one node of a replicated avroreg: it appends writes to a log in etcd, applies the log to this
node's avroreg, and reads from it. Ends with status 0 after SIGTERM, 1 after a fault of its own, 2 if the
configuration or the position file is unusable."""

logger = logging.getLogger("avroreg-relay")


async def alive() -> None:
    """Tells systemd that this process isn't stuck. systemd kills one that is, so that nginx stops reading from its avroreg."""
    address = os.environ.get("NOTIFY_SOCKET", "")
    while address:
        with socket.socket(socket.AF_UNIX, socket.SOCK_DGRAM) as notified:
            notified.sendto(b"WATCHDOG=1", address.replace("@", "\0", 1))
        await asyncio.sleep(1)


async def until(event: asyncio.Event) -> None:
    await event.wait()


async def run(settings: Config) -> None:
    """Runs until SIGTERM or SIGINT."""
    replica = Replica(settings)
    server = Server(replica)
    stop = asyncio.Event()
    for number in (signal.SIGTERM, signal.SIGINT):
        asyncio.get_running_loop().add_signal_handler(number, stop.set)
    work: list[asyncio.Task[None]] = [asyncio.create_task(it) for it in (replica.follow(), replica.keep_books(), replica.keep_local_reads(), replica.appender.run(), alive())]
    await server.start()
    logger.info("node %s at revision %d, for clients at %s:%d", settings.node, replica.position.revision, *settings.listen)
    stopping = asyncio.create_task(until(stop))
    try:
        # The tasks don't end by themselves, except in a stopped node, which still answers 503.
        while not stop.is_set():
            await asyncio.wait([stopping, *work], return_when=asyncio.FIRST_COMPLETED)
            for task in [it for it in work if it.done()]:
                task.result()
                work.remove(task)
        await server.close()
    finally:
        for task in (stopping, *work):
            task.cancel()
        await asyncio.gather(*work, return_exceptions=True)
        replica.close()
    logger.info("ended at revision %d", replica.saved.revision)


def main() -> None:
    parser = argparse.ArgumentParser(description=DESCRIPTION)
    parser.add_argument("--config", type=pathlib.Path, default=CONFIG, help=f"the configuration file ({CONFIG})")
    options = parser.parse_args()
    try:
        settings = config.load(options.config)
        logs.set_up(settings.log_format)
        asyncio.run(run(settings))
    except Misconfigured as fault:
        print(f"avroreg-relay: {fault}", file=sys.stderr)
        sys.exit(2)
    except OSError as fault:
        print(f"avroreg-relay: {fault}", file=sys.stderr)
        sys.exit(1)
