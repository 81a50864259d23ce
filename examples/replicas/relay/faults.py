"""The errors of the relay."""


class Unavailable(Exception):
    """etcd or avroreg doesn't answer now. The request may have been applied, or may be applied later."""


class Compacted(Exception):
    """etcd has dropped the history that a watch needs. The log still has every entry."""


class Broken(Exception):
    """This node differs from the other nodes. It stops until somebody rebuilds it."""


class Misconfigured(Exception):
    """The configuration or the position file is unusable."""


class Refused(Exception):
    """The relay rejects a request. The status is the first three digits of the code."""

    def __init__(self, code: int, message: str) -> None:
        super().__init__(message)
        self.code, self.message = code, message
