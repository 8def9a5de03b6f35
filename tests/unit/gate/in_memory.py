"""A desk in memory, by its events, as the gate asks it."""
import json

import standing  # noqa: F401: where the modules are
from acd_service.gate.exchanges import NO_DESK, Answer, error


def event(number, **members):
    return {"number": number, "moment": 1000 + number, **members}


def logged_on(number, agent="7", device="201", **members):
    return event(number, event="agentLoggedOn", agent=agent, device=device, **({"group": "100"} | members))


class InMemory:
    """A desk with stations 201 and 202, agents 7 and 8 and group 100, by its events; `asked` are the paths it was asked for."""

    def __init__(self):
        self.events, self.asked, self.answers, self.texts = [], [], True, {}
        self.plan = {"groups": [{"device": "100", "name": "Billing", "ring": 20, "wrap": 30}], "stations": [{"device": "201"}, {"device": "202"}], "calls": [],
                     "agents": [{"agent": agent, "name": name, "state": "null", "since": 0} for agent, name in (("7", "Ana"), ("8", "Ben"))]}

    async def ask(self, _, path):
        self.asked.append(path)
        if not self.answers:
            return NO_DESK
        route, _, after = path.partition("?after=")
        if route in self.texts:
            return Answer(200, "application/json", json.dumps(self.texts[route]).encode())
        if route == "/snapshot":
            return self.said({"last": 0, "moment": 5, **self.plan})
        if route in ("/history", "/events"):
            return self.said({"events": self.events[int(after):][:3], "last": len(self.events)})
        return error(404)

    def said(self, value):
        return Answer(200, "application/json", json.dumps(value).encode())
