"""The proof that avroreg serves the registry of this node's position: the last message whose response avroreg keeps.

A registry that is empty, older or another one doesn't have the message's key. The relay asks for the key first, by a write that
changes nothing. So it never applies a message out of order.
"""
import base64
import dataclasses
import json
import secrets
from typing import Any

from relay import messages
from relay.faults import Unavailable
from relay.http1 import Response

NOT_KEPT = {404, 405, 413, 501, 40001, 42290, 50001}  # docs/avro-registry-profile.md, "Retry keys"
OTHER_REQUEST = 42290


@dataclasses.dataclass(frozen=True)
class Witness:
    message: bytes
    status: int
    body: bytes

    def question(self) -> bytes:
        """Another write with the same key, and with a mode that nobody can guess. A registry that has the key returns 42290."""
        body = json.dumps({"mode": secrets.token_hex(16)}).encode()
        return messages.message(b"PUT /mode", messages.key_of(self.message), body)

    def check(self, to_question: Response, to_message: Response) -> None:
        """Fails unless these are the responses of the registry that applied the message."""
        is_same = (to_message.status, to_message.body) == (self.status, self.body)
        if code_of(to_question) != OTHER_REQUEST or not is_same:
            raise Unavailable("avroreg serves another registry than this node's: start it with this node's file, or restore a backup")

    def document(self) -> dict[str, Any]:
        return {"message": base64.b64encode(self.message).decode(), "status": self.status, "body": base64.b64encode(self.body).decode()}


def parse(document: dict[str, Any]) -> Witness:
    message, body = (base64.b64decode(document[name], validate=True) for name in ("message", "body"))
    if list(messages.split(message)) != [message]:
        raise ValueError("the witness is no message")
    return Witness(message, int(document["status"]), body)


def code_of(response: Response) -> int:
    """The error code of a response, or its status."""
    if response.status == 200:
        return 200
    return int(json.loads(response.body)["error_code"])


def is_kept(response: Response) -> bool:
    """Whether avroreg returns this response to each retry."""
    return code_of(response) not in NOT_KEPT


def after(message: bytes, response: Response, earlier: Witness | None) -> Witness | None:
    """The witness after a message of the log and its response."""
    return Witness(message, response.status, response.body) if is_kept(response) else earlier
