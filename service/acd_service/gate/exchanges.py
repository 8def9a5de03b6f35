"""One exchange of HTTP as the routes see it: what is asked, what the gate answers, and refusals, which are exceptions.
Unproved."""
from collections.abc import Awaitable, Callable, Mapping
from typing import NamedTuple, Protocol

HEAD_TOO_LARGE = '"code":39,"name":"headTooLarge"'
ERRORS = {
    400: '"code":30,"member":"head","name":"malformed"', 401: '"code":42,"name":"unauthorized"',
    403: '"code":41,"name":"forbidden"', 404: '"code":35,"name":"notFound"', 411: '"code":37,"name":"lengthRequired"',
    413: '"code":38,"name":"bodyTooLarge"', 429: '"code":43,"name":"tooManyRequests"', 431: HEAD_TOO_LARGE,
    501: '"code":40,"name":"notImplemented"', 502: '"code":44,"name":"badGateway"',
}


class Pipe(Protocol):
    """A connection on which an answer goes on: what is written is sent at once, in one, and nobody waits for that."""

    def write(self, *parts: bytes) -> None: ...

    def is_gone(self) -> bool: ...


class Answer(NamedTuple):
    """Status, type and body of an answer; `fields` are those that it has besides. In place of a body it may have what
    goes on writing, and ends with the answer."""
    status: int
    kind: str = "text/plain"
    body: bytes = b""
    fields: tuple[tuple[str, str], ...] = ()
    goes_on: Callable[[Pipe], Awaitable[None]] | None = None


def error(status: int) -> Answer:
    """An error in the desk's form."""
    return Answer(status, "application/json", f'{{"error":{{{ERRORS[status]}}}}}'.encode())


# the desk doesn't answer the gate: another name than where nginx finds no gate, so that a page says which one is gone
NO_DESK = Answer(502, "application/json", b'{"error":{"code":46,"name":"noDesk"}}')


class Refused(Exception):
    """Nothing more is done for this question; the gate answers so."""

    def __init__(self, answer: Answer) -> None:
        super().__init__(answer.status)
        self.answer = answer


class Left(ConnectionError):
    """Who asked has closed the connection, and waits for no answer."""


class Question(NamedTuple):
    """A request: `path` and `query` as they were sent, fields by their names in small letters, all of it as Latin-1.
    `read` reads the body, `has_left` says whether the other end has closed the connection: a handler goes on all the
    same. `login` is who asks, once the door has found that, and `address` where from, if the proxy says so."""
    method: str
    path: str
    query: str
    fields: Mapping[str, str]
    read: Callable[[], Awaitable[bytes]]
    has_left: Callable[[], bool]
    login: str = ""
    address: str = ""

    def field(self, name: str) -> str:
        return self.fields.get(name, "")

    def raw(self, name: str) -> bytes:
        """A field's bytes."""
        return self.field(name).encode("latin-1")

    def stay(self) -> None:
        """Before what costs much: Left where nobody waits for it any more."""
        if self.has_left():
            raise Left
