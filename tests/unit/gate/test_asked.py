"""What is told of a request that no event report tells."""
import json
import unittest

import standing  # noqa: F401: where the modules are
from acd_service.gate.asked import Asked
from acd_service.gate.state import State

GRANTED = b'{"result":{},"status":200}'


def request(requested="notReady", agent="7", **members):
    return json.dumps({"service": "setAgentState", "agent": agent, "requested": requested, **members}).encode()


class AskedTest(unittest.TestCase):
    def setUp(self):
        self.state = State({"last": 4, "moment": 5, "groups": [], "stations": [], "calls": [], "agents": [{"agent": one, "name": "", "state": "ready", "since": 0} for one in "78"]})
        self.asked = Asked()

    def test_a_state_that_a_lead_changes(self):
        self.asked.take(self.state, request(), GRANTED, "lea", 1795436502)
        self.assertEqual(self.asked.changed, {"7": {"by": "lea", "moment": 1795436502, "requested": "notReady"}})
        self.assertEqual(self.state.touched, {"7"})

    def test_until_the_agent_asks_for_one(self):
        for agent in ("7", "8"):
            self.asked.take(self.state, request(agent=agent), GRANTED, "lea", 10)
        self.asked.take(self.state, request("ready"), GRANTED, "", 20)
        self.assertEqual(list(self.asked.changed), ["8"])
        self.asked.take(self.state, request("loggedOff", agent="8"), GRANTED, "boss", 30)
        self.assertEqual(self.asked.changed, {"8": {"by": "boss", "moment": 30, "requested": "loggedOff"}})

    def test_what_comes_after_a_call(self):
        self.asked.take(self.state, request(), b'{"result":{"pending":"notReady"},"status":200}', "lea", 10)
        self.assertEqual((self.state.agents["7"].pending, self.asked.changed["7"]["by"]), ("notReady", "lea"))
        self.asked.take(self.state, request("ready"), GRANTED, "", 20)
        self.assertEqual(self.state.agents["7"].pending, "notReady")

    def test_what_changes_nothing(self):
        """Refusals, other services, agents that nobody knows, and what no request is."""
        for body, reply in ((request(), b'{"error":{"code":12,"name":"wrongAgentState"}}'), (b'{"service":"holdCall","agent":"7","requested":"x"}', GRANTED), (request(agent="9"), GRANTED),
                            (b'["setAgentState"]', GRANTED), (b'setAgentState', GRANTED), (request(), b"<html>"), (request(), b'{"result":7}'), (b'{"service":"setAgentState","agent":"7"}', GRANTED),
                            (b'{"service":"setAgentState","agent":["7"],"requested":"ready"}', GRANTED)):
            self.asked.take(self.state, body, reply, "lea", 10)
            self.assertEqual((self.asked.changed, self.state.touched, self.state.agents["7"].pending), ({}, set(), None), body)


if __name__ == "__main__":
    unittest.main()
