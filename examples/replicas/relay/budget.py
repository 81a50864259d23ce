"""A limit on the bytes that all connections together hold in memory."""
import contextlib
from typing import Iterator

from relay.faults import Refused
from relay.http1 import BUSY


class Budget:
    def __init__(self, size: int) -> None:
        self.free = size

    @contextlib.contextmanager
    def reserved(self, size: int) -> Iterator[None]:
        """Reserves bytes while the block runs. Refuses if too few are free."""
        if size > self.free:
            raise Refused(BUSY, "This node has too many requests now")
        self.free -= size
        try:
            yield
        finally:
            self.free += size
