#!/usr/bin/python3
"""Tests of the rules of each role, of whose a requester is, and of what a lead may.   usage: tests/unit/gate/test_judging.py

Needs python3-aiohttp, python3-passlib and python3-bcrypt (Debian packages)."""
import contextlib
import io
import json
import unittest

from standing import ROLES, SECRET, USERS, GateTest
from test_following import desk_state

from acd_service.gate.judging import Look, Seen, looks_at, may
from acd_service.gate.roles import NO_KEYS, Role

CALL_SERVICES = ["makeCall", "phoneOffHook", "answerCall", "rejectCall", "holdCall", "retrieveCall", "clearConnection", "deflectCall", "singleStepTransfer"]
PLAN_SERVICES = ["addGroup", "addStation", "addAgent", "setGroupPriority", "changeGroup", "changeAgent"]
OTHERS = ["arriveCall", "monitorStart", "monitorStop", "tick"]


class ServiceTest(GateTest):
    def test_roles(self):
        every = [*CALL_SERVICES, *PLAN_SERVICES, *OTHERS, "setAgentState", "nothing"]
        self.assertEqual(self.allowed("pbx", every), every)
        self.assertEqual(self.allowed("planner", every), PLAN_SERVICES)
        for login in ("sup", "nobody", "Copy.2", ""):
            self.assertEqual(self.allowed(login, every, agent="7", device="201"), [])

    def test_agent(self):
        every = [*CALL_SERVICES, *PLAN_SERVICES, *OTHERS]
        self.assertEqual(self.allowed("ana", every, device="201", agent="7"), CALL_SERVICES)
        for device in ("202", "0201", 201, ["201"], None):
            self.assertEqual(self.allowed("ana", CALL_SERVICES, device=device), [])
        self.assertEqual(self.allowed("ben", CALL_SERVICES, device="201"), [])  # who is logged on nowhere
        self.assertEqual(self.allowed("ben", CALL_SERVICES, device=None), [])
        for agent, wanted in (("7", True), ("07", False), ("8", False), (7, False), (None, False)):
            self.assertEqual(self.passes("ana", {"requester": "ana", "service": "setAgentState", "agent": agent, "requested": "ready"}), wanted)
        self.assertTrue(self.passes("ben", {"requester": "ben", "service": "setAgentState", "agent": "07", "requested": "ready"}))

    def test_the_role_of_rules(self):
        """Who moves callers by an office's rules names a group as device: a call is in a group only while it waits."""
        role, logins, state = Role("rules"), {"rules", "rules-b"}, desk_state()

        def allows(service, requester="rules-100-long-1", **members):
            body = json.dumps({"requester": requester, "invoke": 1, "service": service, **members}).encode()
            look = looks_at(role, "rules", logins, body)
            return may(role, "rules", logins, body, Seen(state=state) if look is Look.STATE else Seen())

        for service, members in (("deflectCall", {"call": 3, "device": "100", "to": "110"}), ("deflectCall", {"call": 3, "device": "120", "to": "203"}), ("clearConnection", {"call": 3, "device": "100"})):
            self.assertTrue(allows(service, **members), (service, members))
        for service, members in (("deflectCall", {"call": 1, "device": "201", "to": "110"}), ("clearConnection", {"call": 1, "device": "201"}), ("clearConnection", {"call": 3, "device": "0303333"}),
                                 ("clearConnection", {"call": 3, "device": ["100"]}), ("clearConnection", {"call": 3}), ("clearConnection", {"call": 3, "device": "130"}),
                                 ("answerCall", {"call": 3, "device": "100"}), ("setGroupPriority", {"device": "100", "priority": 9}), ("arriveCall", {"caller": "1", "called": "100"}), ("tick", {}),
                                 (["deflectCall"], {"call": 3, "device": "100", "to": "110"})):
            self.assertFalse(allows(service, **members), (service, members))
        for requester in ("pbx", "rules-b-100-long-1", "clock-abcdefghijkl"):
            self.assertFalse(allows("clearConnection", requester, call=3, device="100"), requester)
        self.assertEqual((role.reading, role.reads_requests, role.asks), ("all", False, True))

    def logs_on(self, login, **members):
        return self.passes(login, {"requester": login, "invoke": 1, "service": "setAgentState", "agent": "7", "requested": "loggedOn", **members})

    def test_stations_and_groups_of_a_log_on(self):
        for members in ({"device": "201", "group": "100"}, {"device": "202", "groups": ["110", "100"]}, {"device": "201", "groups": ["110"]}):
            self.assertTrue(self.logs_on("cleo", **members), members)
        for members in ({"device": "203", "group": "100"}, {"group": "100"}, {"device": ["201"], "group": "100"}, {"device": None, "group": "100"}, {"device": "0201", "group": "100"},
                        {"device": "201", "group": "120"}, {"device": "201", "groups": ["100", "120"]}, {"device": "201", "group": None, "groups": ["100"]},
                        {"device": "201", "group": "120", "groups": ["100"]}, {"device": "201"}, {"device": "201", "groups": "100"}, {"device": "201", "groups": [["100"]]},
                        {"device": "201", "group": "120", "requested": "loggedon"}, {"device": "201", "group": "120", "requested": ["loggedOn"]}):
            self.assertFalse(self.logs_on("cleo", **members), members)
            self.assertTrue(self.logs_on("ana", **members), members)
        for requested in ("ready", "notReady", "workingAfterCall", "loggedOff"):
            self.assertTrue(self.logs_on("cleo", requested=requested))

    def test_stations_of_a_call(self):
        self.assertEqual(self.allowed("cleo", CALL_SERVICES, device="201"), CALL_SERVICES)
        self.assertEqual(self.allowed("cleo", CALL_SERVICES, device="202"), [])  # where the agent isn't
        self.desk.station = "203"  # where the agent is by another's request, and isn't to be
        self.assertEqual(self.allowed("cleo", CALL_SERVICES, device="203"), [])
        self.assertEqual(self.allowed("ana", CALL_SERVICES, device="203"), CALL_SERVICES)


class KeyTest(GateTest):
    def asks(self, login, requester, **members):
        return self.passes(login, {"requester": requester, "invoke": 1, "service": "setAgentState", "agent": "7", "requested": "ready", **members})

    def test_requesters_of_a_login(self):
        for requester in ("ana", "ana-x", "ana-", "ana-a-b", "ana-bb", "ana-0123456789abcdefghijklmnop"):
            self.assertTrue(self.asks("ana", requester), requester)
        for requester in ("clock", "clock-abcdefghijkl", "plan", "plan-1", "pbx", "pbx-1", "an", "anab", "ANA", "Ana-x", "", "-ana", "anna-x", "ben-ana"):
            self.assertFalse(self.asks("ana", requester), requester)

    def test_a_longer_login(self):
        for requester, owner in (("ana-b", "ana-b"), ("ana-b-x", "ana-b"), ("ana-bx", "ana"), ("ana-x-ana-b", "ana")):
            self.assertEqual([login for login in ("ana", "ana-b") if self.asks(login, requester, agent={"ana": "7", "ana-b": "8"}[login])], [owner])
        self.users.write_text(USERS + f"ana-x:{SECRET}\n")  # who has a password alone
        self.assertFalse(self.asks("ana", "ana-x-1"))

    def test_nobody_has_the_clocks_keys(self):
        self.roles.write_text(ROLES + "clock exchange\nplan-b exchange\nplanning exchange\n")
        with contextlib.redirect_stderr(io.StringIO()):
            for login in ("pbx", "planner", "ana", "clock", "plan-b"):
                for requester in ("clock", "clock-a", "plan", "plan-b", "plan-b-c", "clock-", login):
                    self.assertEqual(self.passes(login, {"requester": requester, "service": "addGroup"}), requester == login and login in ("pbx", "planner"), (login, requester))
        self.assertTrue(self.passes("planning", {"requester": "planning-1", "service": "tick"}))

    def test_unfit_logins_only_read(self):
        unfit = ("Ana", "ana.b", "abcdefghijklmnop", "a_b", "Jürgen", "clock", "plan-x")
        self.roles.write_text("".join(f"{login} exchange\n" for login in unfit) + "ana Ana\nabcdefghijklmno exchange\n")
        with contextlib.redirect_stderr(io.StringIO()) as printed:
            for login in unfit:
                self.assertFalse(self.passes(login, {"requester": login, "service": "tick"}), login)
                status, text = self.ask(login, None, "GET", "/who")
                self.assertEqual((status, json.loads(text)), (200, {"login": login, "why": NO_KEYS}))
        self.assertEqual([login for login in unfit if f" {login}: it only reads" not in printed.getvalue()], [])
        self.assertTrue(self.passes("abcdefghijklmno", {"requester": "abcdefghijklmno", "service": "tick"}))

    def test_what_is_no_object_with_a_requester(self):
        for body in (b"", b"\xff{no json", b"[]", b"7", b'"x"', b"{}", b'{"requester":7}', b'{"requester":null,"service":"tick"}', b'{"requester":"pbx"', b'\xef\xbb\xbf{"requester":"pbx"}',
                     b"[" * 4000, b'{"requester":"pbx","x":' + b"[" * 1500 + b"]" * 1500 + b"}"):
            self.assertTrue(self.passes("pbx", body), body)
            for login in ("ana", "planner", "sup", "nobody"):
                self.assertFalse(self.passes(login, body), body)

    def test_a_member_twice(self):
        for body in (b'{"requester":"pbx","requester":"clock","service":"tick"}', b'{"requester":"clock","requester":"pbx","service":"tick"}', b'{"requester":"pbx","\\u0072equester":"clock"}',
                     b'{"requester":"pbx","service":"tick","x":1,"x":2}', b'{"requester":"pbx","x":{"y":1,"y":2}}'):
            self.assertFalse(self.passes("pbx", body), body)

    def test_bodies_that_can_be_read_in_two_ways(self):
        rights = b'"requester":"ana","service":"setAgentState","agent":"7","requested":"ready"'
        self.assertTrue(self.passes("ana", b"{" + rights + b"}"))
        for body in (b'{"service":"addGroup",' + rights + b"}", b"{" + rights + b',"agent":"8"}', b"{" + rights + b',"\\u0061gent":"8"}', b"\xef\xbb\xbf{" + rights + b"}", b"{" + rights + b'} {"a":1}',
                     b"{" + rights + b',"x":"\xff"}', b'{"requester":"ana","service":["setAgentState"],"agent":"7"}'):
            self.assertFalse(self.passes("ana", body), body)

    def test_no_byte_is_changed(self):
        body = b' {"note" : [1, {"to":null}],\t"requester":"an\\u0061-1", "agent":"7", "service":"set\\u0041gentState", "requested":"ready" }\r\n'
        self.assertTrue(self.passes("ana", body))
        self.assertEqual(self.desk.got[-1], ("/csta", body))
        self.assertTrue(self.passes("pbx", b"\xff{no json"))
        self.assertEqual(self.desk.got[-1], ("/csta", b"\xff{no json"))


class LeadTest(unittest.TestCase):
    def may(self, service, *events, **members):
        body = json.dumps({"requester": "lea-1", "invoke": 1, "service": service, **members}).encode()
        lead, state = Role("lead", groups=frozenset({"100", "110"})), desk_state()
        for kind, told in events:
            state.apply({"number": state.last + 1, "moment": 60, "event": kind, **told})
        allowed = may(lead, "lea", {"lea"}, body, Seen(state=state))
        self.assertFalse(may(lead, "lea", {"lea"}, body))  # without a look at the desk
        self.assertLessEqual(allowed, looks_at(lead, "lea", {"lea"}, body) is Look.STATE)
        return allowed

    def test_what_a_lead_may(self):
        for service, members in (("setAgentState", {"agent": "7", "requested": "ready"}), ("setAgentState", {"agent": "8", "requested": "loggedOff"}), ("clearConnection", {"call": 1, "device": "201"}),
                                 ("deflectCall", {"call": 3, "device": "100", "to": "110"}), ("deflectCall", {"call": 3, "device": "100", "to": "202"}), ("setGroupPriority", {"device": "110", "priority": 9})):
            self.assertTrue(self.may(service, **members), (service, members))

    def test_a_caller_who_was_sent_to_an_agent(self):
        """Whose last group is the lead's, ringing or talking; of another group's, or of a colleague's call, nobody's lead is asked."""
        for call, group, allowed in ((3, "100", True), (4, "120", False)):
            sent = [("diverted", {"call": call, "device": group, "to": "203", "group": group, "cause": "deflected"}), ("delivered", {"call": call, "device": "203", "cause": "deflected"})]
            talks = [*sent, ("agentLoggedOn", {"agent": "9", "device": "203", "group": "120"}), ("established", {"call": call, "device": "203"})]
            for events in (sent, talks):
                self.assertIs(self.may("clearConnection", *events, call=call, device="203"), allowed)
            self.assertIs(self.may("deflectCall", *sent, call=call, device="203", to="110"), allowed)
            self.assertFalse(self.may("deflectCall", *talks, call=call, device="203", to="110"))
            self.assertFalse(self.may("deflectCall", *sent, call=call, device="203", to="120"))
        own = ("serviceInitiated", {"call": 9, "device": "202"}), ("originated", {"call": 9, "device": "202", "to": "203"}), ("delivered", {"call": 9, "device": "203", "cause": "newCall"})
        self.assertFalse(self.may("clearConnection", *own, call=9, device="203"))

    def test_what_a_lead_may_not(self):
        for service, members in (("setAgentState", {"agent": "9", "requested": "ready"}), ("setAgentState", {"agent": "7", "requested": "workingAfterCall"}), ("setAgentState", {"agent": ["7"], "requested": "ready"}),
                                 ("setAgentState", {"agent": "7", "requested": ["ready"]}), ("setAgentState", {"agent": "7", "requested": "loggedOn", "device": "203", "group": "100"}),
                                 ("clearConnection", {"call": 2, "device": "202"}), ("clearConnection", {"call": 3, "device": "100"}), ("clearConnection", {"call": 1, "device": "0301111"}),
                                 ("clearConnection", {"call": True, "device": "201"}), ("clearConnection", {"call": 9, "device": "201"}), ("clearConnection", {"call": 1, "device": ["201"]}),
                                 ("deflectCall", {"call": 3, "device": "100", "to": "120"}), ("deflectCall", {"call": 3, "device": "100", "to": "203"}), ("deflectCall", {"call": 4, "device": "120", "to": "110"}),
                                 ("deflectCall", {"call": 1, "device": "201", "to": "110"}), ("deflectCall", {"call": 3, "device": "100"}), ("setGroupPriority", {"device": "120", "priority": 9}),
                                 ("rejectCall", {"call": 1, "device": "201"}), ("tick", {}), ("addAgent", {"agent": "7"})):
            self.assertFalse(self.may(service, **members), (service, members))


if __name__ == "__main__":
    unittest.main()
