"""The requests of an office: each with its key, whose numbers are counted; its plan, as requests and as a file; and lines of them."""
import collections
import csv
import io
import json
from typing import NamedTuple

# who asks for a service, unless another requester is named
OFFICE = {"addGroup": "plan", "addStation": "plan", "addAgent": "plan", "changeGroup": "plan", "changeAgent": "plan", "setGroupPriority": "plan", "arriveCall": "pbx",
          "clearConnection": "pbx", "monitorStart": "sup", "monitorStop": "sup", "tick": "clock"}


def compact(value):
    """As a desk writes it, but for the order of members."""
    return json.dumps(value, separators=(",", ":"))


def line(moment, request):
    """A line for `acd lines`."""
    return f"{moment} {compact(request)}\n"


def lines(requests, moment=0):
    """A line each, all of one moment; of a pair, the moment is its own."""
    return "".join(line(*it) if isinstance(it, tuple) else line(moment, it) for it in requests)


class Plan(NamedTuple):
    """A group is its number, or has a name, a ring and a wrap beside that; an agent is the number, or has a name beside that."""
    groups: list = [("100", "Billing", 20, 30)]
    stations: list = ["201", "202"]
    agents: list = [("7", "Ana"), ("8", "Ben")]

    def rows(self):
        """What `acd import` takes, without its first row."""
        for group in self.groups:
            device, *more = group if isinstance(group, tuple) else (group,)
            yield ["group", device, *(more + [f"Group {device}", 20, 30][len(more):])]
        for device in self.stations:
            yield ["station", device, "", "", ""]
        for agent in self.agents:
            number, name = agent if isinstance(agent, tuple) else (agent, f"Agent {agent}")
            yield ["agent", number, name, "", ""]

    def text(self):
        """The file of the plan."""
        text = io.StringIO()
        csv.writer(text, lineterminator="\n").writerows([["kind", "number", "name", "ring", "wrap"], *self.rows()])
        return text.getvalue()


class Requests:
    """Makes requests, each with the next number of its requester, of whom the last numbers may be given: `request = Requests(plan=5)`, then `request("addStation", device="203")`."""

    def __init__(self, **last):
        self.last = collections.Counter(last)

    def __call__(self, service, requester=None, **members):
        requester = requester or OFFICE.get(service, "desk")
        self.last[requester] += 1
        return {"requester": requester, "invoke": self.last[requester], "service": service, **members}

    def plan(self, plan=Plan(), requester=None):
        """The requests that `acd import` makes of the plan."""
        for kind, number, name, ring, wrap in plan.rows():
            members = {"group": {"device": number, "name": name, "ring": ring, "wrap": wrap}, "station": {"device": number}, "agent": {"agent": number, "name": name}}[kind]
            yield self(f"add{kind.capitalize()}", requester, **members)

    def log_on(self, agent, device, *groups):
        named = {"group": groups[0]} if len(groups) == 1 else {"groups": list(groups)}
        return self("setAgentState", agent=agent, requested="loggedOn", device=device, **named)

    def state(self, agent, requested="ready"):
        return self("setAgentState", agent=agent, requested=requested)

    def arrive(self, caller="0301234", called="100"):
        return self("arriveCall", caller=caller, called=called)

    def at(self, service, call, device, **members):
        """What is asked of a call's connection: answerCall, rejectCall, clearConnection .."""
        return self(service, call=call, device=device, **members)

    def tick(self):
        return self("tick")
