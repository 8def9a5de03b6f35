"""What was asked for through the gate, and no event report tells: the state that an agent gets after a call, and who
else changed an agent's state. Unproved."""
import contextlib
import json

from acd_service.gate.parts import Text
from acd_service.gate.state import State


class Asked:
    """`changed` says of an agent who else asked for the last change of the agent's state, for which one, and when."""

    def __init__(self) -> None:
        self.changed: dict[str, Text] = {}

    def take(self, state: State, body: bytes, reply: bytes, by: str, moment: int) -> None:
        """The desk's reply to a request. `by` is who asked, or nothing where the agent did, or the agent's
        telephone."""
        if b"setAgentState" not in body:
            return
        with contextlib.suppress(ValueError, KeyError, TypeError, AttributeError):
            request, result = json.loads(body), json.loads(reply)["result"]
            agent, requested = state.agents[request["agent"]], request["requested"]
            agent.pending = result.get("pending", agent.pending)
            self.changed.pop(agent.id, None)
            if by:
                self.changed[agent.id] = {"by": by, "moment": moment, "requested": requested}
            state.touched.add(agent.id)
