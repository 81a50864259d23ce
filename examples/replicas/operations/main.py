"""The program avroreg-cluster."""
import argparse
import asyncio
import pathlib
import sys

from operations.cluster import Cluster, Failed
from operations.node import Node
from operations.skip import Skipping
from relay import config
from relay.faults import Misconfigured, Unavailable
from relay.main import CONFIG

DESCRIPTION = """Operations of a replicated avroreg, run on a node. Ends with status 0 if the operation was done, 1 if it wasn't, 2 if the
configuration or a position file is unusable."""


def parse_arguments() -> argparse.Namespace:
    parser = argparse.ArgumentParser(description=DESCRIPTION)
    parser.add_argument("--config", type=pathlib.Path, default=CONFIG, help=f"the relay's configuration ({CONFIG})")
    commands = parser.add_subparsers(dest="command", required=True, metavar="COMMAND")
    commands.add_parser("status", help="print each node's position and the state of the log")
    pause = commands.add_parser("pause", help="stop all writes, and wait until every node has applied the log; reads go on")
    pause.add_argument("--seconds", type=float, default=60, help="how long to wait for a node (60)")
    commands.add_parser("resume", help="allow writes again")
    commands.add_parser("trim", help="remove the entries that every node has applied")
    commands.add_parser("defragment", help="free the space of removed entries in this node's etcd, and end the alarm of a full quota")
    forget = commands.add_parser("forget", help="stop waiting for a node that won't come back")
    forget.add_argument("node")
    replace = commands.add_parser("replace", help="put a new member of etcd in the place of a lost node's")
    replace.add_argument("node")
    replace.add_argument("peer_url", help="the new member's address for its peers, such as https://10.0.0.3:2380")
    backup = commands.add_parser("backup", help="copy this node's database and position into a new folder")
    backup.add_argument("folder", type=pathlib.Path)
    restore = commands.add_parser("restore", help="put a backup of any node of this cluster in place on this node")
    restore.add_argument("folder", type=pathlib.Path)
    adopt = commands.add_parser("adopt", help="begin a new cluster from a database; run it on each node with the same file")
    adopt.add_argument("database", type=pathlib.Path)
    upgrade = commands.add_parser("upgrade", help="replace this node's avroreg, while writes are paused")
    upgrade.add_argument("program", type=pathlib.Path)
    upgrade.add_argument("--migrate", action="store_true", help="run the new program's migrate on the database")
    skip = commands.add_parser("skip", help="don't apply an entry that blocks every node, or that no relay wrote; run it on each node")
    skip.add_argument("revision", type=int, help="the revision that /health of each node names")
    skip.add_argument("--reason", required=True, help="a text for the record, which status prints")
    commands.add_parser("fingerprint", help="print the revision and a hash of all of this node's responses to reads, to compare with other nodes")
    return parser.parse_args()


async def run(options: argparse.Namespace, settings: config.Config) -> None:
    cluster, node = Cluster(settings), Node(settings)
    match options.command:
        case "status":
            await cluster.status()
        case "pause":
            await cluster.pause(options.seconds)
        case "resume":
            await cluster.resume()
        case "trim":
            await cluster.trim()
        case "defragment":
            await cluster.defragment()
        case "forget":
            await cluster.forget(options.node)
        case "replace":
            await cluster.replace(options.node, options.peer_url)
        case "backup":
            await node.backup(options.folder)
        case "restore":
            await node.restore(options.folder)
        case "adopt":
            await node.adopt(options.database)
        case "upgrade":
            await node.upgrade(options.program, options.migrate)
        case "skip":
            await Skipping(settings).skip(options.revision, options.reason)
        case "fingerprint":
            await node.show_fingerprint()


def main() -> None:
    options = parse_arguments()
    try:
        asyncio.run(run(options, config.load(options.config)))
    except Misconfigured as fault:
        print(f"avroreg-cluster: {fault}", file=sys.stderr)
        sys.exit(2)
    except (Failed, Unavailable, OSError, ValueError) as fault:
        print(f"avroreg-cluster: {fault}", file=sys.stderr)
        sys.exit(1)
