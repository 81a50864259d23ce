"""The end of a command without success."""


class Refused(Exception):
    """The request can't be met. Nothing was changed."""

    status = 1


class Failed(Exception):
    """A program or a file failed. All was put back."""

    status = 2
