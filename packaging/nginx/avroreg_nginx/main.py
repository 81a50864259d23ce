"""The arguments of avroreg-nginx, and the order of each command."""
import argparse
import os
import sys

from . import commands, machine, passwords
from .faults import Failed, Refused
from .settings import ROLES

USAGE = """serves the registry of this machine through nginx.

At first nginx listens on 127.0.0.1:8080 only, without users. `on` lets other machines in: it needs a certificate, makes the first
user, and prints the password once. Each change is tested by `nginx -t`; if nginx refuses it, everything stays as it was.

Status 0: done. 1: refused, nothing was changed. 2: a program or a file failed, everything was put back. 64: wrong arguments."""


class Parser(argparse.ArgumentParser):
    def error(self, message):
        print(f"avroreg-nginx: {message}. See {self.prog} --help", file=sys.stderr)
        sys.exit(64)


def add_user_parsers(parsers):
    user = parsers.add_parser("user", help="add, change, remove and list users").add_subparsers(dest="subcommand", required=True, parser_class=Parser)
    for name, function, text in (("add", commands.user_add, "prints a random password once"), ("password", commands.user_password, "gives a new password"),
                                 ("role", commands.user_role, "changes the role"), ("remove", commands.user_remove, "removes the user")):
        parser = user.add_parser(name, help=text)
        parser.set_defaults(function=function)
        parser.add_argument("user", metavar="NAME")
        if name in ("add", "role"):
            parser.add_argument("--role", required=True, choices=ROLES, help="read: list, look up and check; register: also register; admin: everything")
            parser.add_argument("--prefix", default="", help="for register: the beginning of the subjects, such as team-a. or * for all")
        if name in ("add", "password"):
            parser.add_argument("--password-stdin", action="store_true", help="read the password from standard input")
    user.add_parser("list", help="prints each user with its role").set_defaults(lines=commands.user_list)


def add_on_parser(parsers):
    parser = parsers.add_parser("on", help="let other machines in, with TLS and users")
    parser.set_defaults(function=commands.on)
    parser.add_argument("--name", action="append", default=[], metavar="HOST", help="the name or address that clients use; may be repeated")
    parser.add_argument("--cert", metavar="FILE", help="the certificate with its chain, in PEM")
    parser.add_argument("--key", metavar="FILE", help="its private key")
    parser.add_argument("--port", type=int, help="default: 443")


def add_set_parser(parsers):
    parser = parsers.add_parser("set", help="change other settings")
    parser.set_defaults(function=commands.set_values)
    parser.add_argument("--registry", metavar="NAME", help="the registry's name, for pauses of its writes")
    parser.add_argument("--registry-port", type=int, help="avroreg's port")
    parser.add_argument("--local-port", type=int, help="nginx's port on 127.0.0.1")
    parser.add_argument("--rate", type=int, help="requests a second of a user at one address")
    parser.add_argument("--origin", action="append", metavar="URL", help="another origin whose pages may write, or none")
    for name in "gateway", "page":
        parser.add_argument(f"--{name}", choices=("on", "off"))


def parser_of():
    parser = Parser(prog="avroreg-nginx", description=f"avroreg-nginx {USAGE}", formatter_class=argparse.RawDescriptionHelpFormatter)
    parsers = parser.add_subparsers(dest="command", required=True, parser_class=Parser, metavar="COMMAND")
    add_on_parser(parsers)
    add_user_parsers(parsers)
    add_set_parser(parsers)
    parsers.add_parser("show", help="print the settings").set_defaults(lines=commands.show)
    for name, function, text in (("off", commands.off, "keep other machines out"), ("renew", commands.renew, "let nginx read a new certificate"),
                                 ("forget-cache", commands.forget_cache, "after a restore: empty the cache of schemas"),
                                 ("apply", commands.apply, "write nginx's configuration again")):
        parsers.add_parser(name, help=text).set_defaults(function=function)
    return parser


def run(options):
    with machine.lock():
        context = commands.Context(options, machine.load(), passwords.parse(machine.read(machine.USERS)))
        options.function(context)
        context.settings.check()
        machine.change({**machine.files_of(context.settings, context.hashes, context.cache_key), **context.more_files})
    if not machine.is_running():
        context.messages.append("warn  nginx doesn't run: systemctl start nginx")
    for message in context.messages:
        print(message)


def main():
    options = parser_of().parse_args()
    if os.geteuid() != 0:
        print("avroreg-nginx: run this as root", file=sys.stderr)
        return 77
    try:
        if hasattr(options, "lines"):
            print(*options.lines(machine.load()), sep="\n")
        else:
            run(options)
    except (Refused, Failed) as fault:
        print(f"avroreg-nginx: {fault}", file=sys.stderr)
        return fault.status
    return 0
