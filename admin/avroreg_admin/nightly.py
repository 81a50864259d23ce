"""Make the timer's backup, as the registry's user, and remove old ones."""

from . import backup
from .output import DONE


def add(parser) -> None:
    pass


def run(context) -> int:
    backup.report(context.output, backup.make(context.place))
    return DONE
