"""The rows of the file: legs, calls, transactions at both sides, and requests that the desk hasn't answered yet."""
from dataclasses import dataclass, field
from typing import Any

from .store import Row, Store, Table


@dataclass
class Place(Row):
    """The last event that the exchange read, and the last invoke that it used."""
    invoke: int = 0
    known: dict[str, Any] = field(default_factory=dict)


@dataclass
class Leg(Row):
    """A dialog with a phone or a caller; its key is the tag of the exchange. state: `in` (a caller without an answer),
    `out` (a phone that has the INVITE), `rings`, `up`, `closing`. `ours` and `theirs` are addresses with tags. `own` is
    the last description of media that the exchange sent, `sdp` the last one of the peer; `transaction` is that of the
    last INVITE."""
    device: str
    station: bool
    state: str
    call_id: str
    ours: str
    theirs: str
    target: str
    hop: str = ""
    transaction: str = ""
    routes: list[str] = field(default_factory=list)
    call: str = ""
    asked: int = 0
    heard: int = 0
    sdp: str = ""
    own: str = ""
    version: int = 0
    music: bool = False
    held: bool = False
    cancelled: bool = False
    hangs_up: bool = False
    session: int = 0
    refreshes: bool = True
    way: str = ""
    sender: str = ""


@dataclass
class Call(Row):
    """A call of the desk: its legs by device, and by ringing device the group whose offer it is.
    `connected` says that the desk connected both sides, `joined` that their media are."""
    caller: str
    called: str
    legs: dict[str, str] = field(default_factory=dict)
    offers: dict[str, str] = field(default_factory=dict)
    failure: int = 480
    connected: bool = False
    joined: bool = False


@dataclass
class Stranger(Row):
    """A live call of the desk of which the exchange has no leg."""


@dataclass
class Agent(Row):
    """Who is logged on at a station."""
    agent: str


@dataclass
class Request(Row):
    """A request to the desk that has no reply yet; its key is its invoke. `then` names the function for the reply, and
    `since` is the moment from which on it waits; a file of before 1.17 doesn't say."""
    body: dict[str, Any]
    then: str
    leg: str
    served: str
    since: float = 0.0


@dataclass
class Served(Row):
    """A peer's request and the last reply to it (a server transaction of RFC 3261, 17.2); with an interval the exchange
    sends the reply again until its ACK comes. The names `Served`, `served`, `to` and `own` are in the file, so they
    stay."""
    back: str
    request: str
    leg: str = ""
    reply: str = ""
    interval: float = 0.0
    ends: float = 0.0


@dataclass
class Asked(Row):
    """A request to a peer (a client transaction of RFC 3261, 17.1), and the address `to` which it is sent; with an
    interval the exchange sends it again until a reply comes. `then` names the function for the last reply, and `ack` is
    the ACK of that reply, each time that it comes."""
    to: str
    text: str
    leg: str
    then: str
    served: str
    interval: float
    ends: float
    over: bool = False
    ack: str = ""


class Rows:
    """All of the file, by kind."""

    def __init__(self, store: Store):
        self.places, self.legs, self.calls = Table(store, Place), Table(store, Leg), Table(store, Call)
        self.strangers, self.agents, self.requests = Table(store, Stranger), Table(store, Agent), Table(store, Request)
        self.served, self.asked = Table(store, Served), Table(store, Asked)
