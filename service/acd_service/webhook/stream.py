"""Reads what the gate tells a board, until it ends. Tested, not proved."""
import http.client
import json
from collections.abc import Iterator
from typing import Any

from acd_client import Client, Unanswered, below, credentials

# bytes of an event at most: the greatest plan's first picture has some megabytes
MOST = 1 << 26
# the second one where an older nginx.conf has no line for the first
ROUTES = ("/stream?", "/mine?stream&")
NEEDS = ": the login needs the role supervisor, and the right password"


class Lost(Exception):
    """Nothing comes any more; `status` is that of a refusal, 0 where there is no answer."""

    def __init__(self, why: object, status: int = 0) -> None:
        super().__init__(str(why))
        self.status = status


def events(client: Client, query: str) -> Iterator[tuple[str, dict[str, Any]]]:
    """The kind and the members of each event; Lost at the end."""
    try:
        reply = asked(client, query)
        while True:
            kind, told = event(reply)
            # an agent's login is told of that agent alone
            if kind == "picture" and "desk" not in told:
                raise Lost(f"the gate tells nothing of the desk{NEEDS}", 403)
            yield kind, told
    except (OSError, http.client.HTTPException, ValueError, Unanswered) as fault:
        raise Lost(fault) from None
    finally:
        client.disconnect()


def asked(client: Client, query: str) -> http.client.HTTPResponse:
    for route in ROUTES:
        connection, address = client.connect(), client.addresses[0]
        connection.request("GET", f"{below(address)}{route}{query}", headers=credentials(address))
        reply = connection.getresponse()
        if reply.status == 200:
            return reply
        client.disconnect()
        if reply.status not in (403, 404):
            break
    raise Lost(f"the gate answered {reply.status}{NEEDS if reply.status in (401, 403) else ''}", reply.status)


def event(reply: http.client.HTTPResponse) -> tuple[str, dict[str, Any]]:
    """The next one."""
    found: dict[str, str] = {}
    while (text := reply.readline(MOST)) != b"\n":
        name, colon, value = text.decode().rstrip("\n").partition(": ")
        if not colon or not text.endswith(b"\n"):
            raise ValueError("the stream has ended")
        found[name] = value
    told = json.loads(found.get("data", "null"))
    if not isinstance(told, dict):
        raise ValueError("what came is no event")
    if found.get("event") == "end":
        raise ValueError(f"the gate has ended the stream: {told.get('why')}")
    return found.get("event", ""), told
