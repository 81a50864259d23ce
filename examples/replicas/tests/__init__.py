"""Unit tests: `python3 -m unittest` in the folder above. None needs etcd, avroreg or a network."""
import asyncio
import time
from typing import Callable


async def eventually(condition: Callable[[], bool]) -> None:
    """Waits until a condition is true, at most 30 seconds, since the machine may be busy."""
    until = time.monotonic() + 30
    while not condition():
        if time.monotonic() > until:
            raise AssertionError("it isn't true after 30 seconds")
        await asyncio.sleep(0.005)
