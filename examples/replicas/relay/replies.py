"""The responses to the last messages of the log that this node applied.

avroreg keeps each of them for its retry key. So a retry gets its response from here, and the log gets no further entry. On a slow
machine, clients retry before they get a response: if each retry were an entry, the nodes would fall further and further behind.
"""
import collections
import hashlib

from relay import witness
from relay.http1 import Response

REMEMBERED = 10000  # responses, most of them under 1 KB


class Replies:
    def __init__(self) -> None:
        self.responses: collections.OrderedDict[bytes, Response] = collections.OrderedDict()

    def add(self, message: bytes, response: Response) -> None:
        """Remembers a response, if avroreg keeps it."""
        if witness.is_kept(response):
            self.responses[hashlib.sha256(message).digest()] = response
            if len(self.responses) > REMEMBERED:
                self.responses.popitem(last=False)

    def find(self, message: bytes) -> Response | None:
        """The response to exactly this message, if this node has applied it lately."""
        return self.responses.get(hashlib.sha256(message).digest())
