"""Whether a tick ends something at a desk now, by the desk's snapshot. One that ends nothing is kept in the desk's file
for ever all the same."""
from __future__ import annotations

from typing import Any


def due_at(snapshot: dict[str, Any]) -> int | None:
    """The least moment at which a tick ends something of what the snapshot shows: an offer rings for the ring of its
    call's group, after-call work lasts for the wrap of its agent's least group; 0 stands for no end. None where no tick
    ends anything, LookupError or TypeError where it is no snapshot."""
    groups = {group["device"]: group for group in snapshot["groups"]}
    ends = [(connection["offered"], groups[connection["group"]]["ring"])
            for call in snapshot["calls"] for connection in call["connections"] if "offered" in connection]
    # several groups are in ascending order
    ends += [(agent["since"], groups[agent["groups"][0] if "groups" in agent else agent["group"]]["wrap"])
             for agent in snapshot["agents"] if agent["state"] == "workingAfterCall"]
    return min((begin + seconds for begin, seconds in ends if seconds), default=None)


def is_due(snapshot: dict[str, Any], clock: float) -> bool:
    """Whether a tick that is sent now ends something: its moment is the clock's, or that of the last request where the
    clock has gone back."""
    end = due_at(snapshot)
    return end is not None and end <= max(int(clock), snapshot["moment"])
