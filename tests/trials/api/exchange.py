"""What is asked of a desk, kept with its reply so that it can be judged."""
from typing import NamedTuple

import trial


class Exchange(NamedTuple):
    """A body is bytes, or None where none was sent; `sent` are the names of the fields; example is the one of the description that it is."""
    method: str
    target: str
    body: bytes
    status: int
    fields: dict
    reply: bytes
    sent: list
    example: str


class Desk(trial.Desk):
    def ask(self, method, target, body=None, fields=(), example=None):
        reply = super().ask(method, target, body, fields)
        return Exchange(method, target, body, *reply, [name for name, _ in fields], example)
