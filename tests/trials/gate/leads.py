"""What a lead may ask for, and what not: each case at the desk as it then is."""

from place import Place, plan_of

FORBIDDEN = (403, {"error": {"code": 41, "name": "forbidden"}})


class Leads(Place):
    PLAN = plan_of(stations=("201", "202", "203", "204", "205"), agents=("7", "8", "9", "10"))
    ROLES = {"lea": "lead groups=100,110", "sup": "supervisor", "pbx": "exchange"}

    @classmethod
    def setUpClass(cls):
        super().setUpClass()
        for agent, station, groups in (("7", "201", ["100"]), ("8", "202", ["110", "120"]), ("9", "203", ["120"])):
            cls.log_on(agent, station, groups)

    @classmethod
    def log_on(cls, agent, station, groups):
        cls.service("try", "setAgentState", agent=agent, requested="loggedOn", device=station, groups=groups)

    def allowed(self, what, service, **members):
        status, told = self.request("lea", service, **members)
        self.see(f"a lead may: {what}", status == 200, told)

    def refused(self, what, service, login="lea", **members):
        self.expect(f"a lead may not: {what}", self.request(login, service, **members), FORBIDDEN)

    def state_of(self, agent):
        return self.direct("GET", f"/agents/{agent}").text

    def try_states(self):
        for agent in ("7", "8"):
            for requested in ("ready", "notReady"):
                self.allowed(f"{requested} of {agent}", "setAgentState", agent=agent, requested=requested)
        for agent, why in (("9", "of another group"), ("10", "logged off"), ("77", "nobody"), (7, "no text"), (None, "none"), ("07", "another number")):
            for requested in ("ready", "notReady", "loggedOff"):
                self.refused(f"{requested} of {why}", "setAgentState", agent=agent, requested=requested)
        for requested in ("workingAfterCall", "loggedOn", "busy", "", None, ["ready"]):
            self.refused(f"{requested}", "setAgentState", agent="7", requested=requested, device="204", group="100")
        self.allowed("log off", "setAgentState", agent="8", requested="loggedOff")
        self.see("the agent is logged off", '"state":"null"' in self.state_of("8"), self.state_of("8"))
        self.refused("who is logged off by now", "setAgentState", agent="8", requested="loggedOff")
        self.log_on("8", "202", ["110", "120"])

    def arrive(self, called):
        return self.service("try", "arriveCall", caller="0301234567", called=called)["call"]

    def try_waiting(self):
        own, other = self.arrive("100"), self.arrive("120")
        moves = {"to another of the groups": ("110", True), "to a station of an agent": ("201", True), "to a station of an agent of two groups": ("202", True), "to another group": ("120", False),
                 "to a station of another group's agent": ("203", False), "to a station where nobody is": ("204", False), "to a number outside": ("0307654321", False), "nowhere": (None, False)}
        for what, (to, good) in moves.items():
            if good:
                self.allowed(f"a waiting call {what}", "deflectCall", call=self.arrive("110") if to != "110" else own, device="110" if to != "110" else "100", to=to)
            else:
                self.refused(f"a waiting call {what}", "deflectCall", call=own, device="110", to=to)
        self.refused("a waiting call of another group", "deflectCall", call=other, device="120", to="100")
        self.refused("by a device where it isn't", "deflectCall", call=own, device="100", to="110")
        self.refused("one that waits elsewhere", "deflectCall", call=other, device="100", to="110")
        self.refused("no call", "deflectCall", call=4711, device="100", to="110")
        for odd in (str(own), True, None, [own], own + 0.5):
            self.refused(f"call {odd!r}", "deflectCall", call=odd, device="110", to="100")
        self.refused("to clear one that waits", "clearConnection", call=own, device="110")
        self.refused("to clear the caller of one that waits", "clearConnection", call=own, device="0301234567")
        for station in ("201", "202"):  # calls that ring by a lead's request are still of the group that they came from
            call = next(one["call"] for one in self.calls() if any(side["device"] == station for side in one["connections"]))
            self.refused("to send one on to another group that isn't distributed", "deflectCall", call=call, device=station, to="120")
            self.allowed("to clear one that isn't distributed", "clearConnection", call=call, device=station)
        private = self.service("try", "arriveCall", caller="0309", called="201")["call"]
        self.refused("to clear one that no group had", "clearConnection", call=private, device="201")
        self.service("try", "clearConnection", call=private, device="201")
        for call in (own, other):
            self.service("try", "clearConnection", call=call, device="0301234567")

    def calls(self):
        return self.direct("GET", "/snapshot").value["calls"]

    def ring(self, agent, group):
        """A call of the group that rings at the agent."""
        call = self.arrive(group)
        self.service("try", "setAgentState", agent=agent, requested="ready")
        return call

    def try_offered(self):
        for what, steps in (("rings", ()), ("was answered", ("answerCall",)), ("is held", ("answerCall", "holdCall"))):
            call = self.ring("7", "100")
            for step in steps:
                self.service("try", step, call=call, device="201")
            self.refused(f"its caller's side, when it {what}", "clearConnection", call=call, device="0301234567")
            self.refused(f"to deflect one that {what}", "deflectCall", call=call, device="201", to="110")
            self.allowed(f"to clear one that {what}", "clearConnection", call=call, device="201")
            self.service("try", "setAgentState", agent="7", requested="notReady")
        call = self.ring("8", "120")  # an agent of two groups, a call of the other one
        self.refused("another group's call at an own agent", "clearConnection", call=call, device="202")
        self.service("try", "answerCall", call=call, device="202")
        self.refused("nor when it is answered", "clearConnection", call=call, device="202")
        self.service("try", "clearConnection", call=call, device="202")
        self.service("try", "setAgentState", agent="8", requested="notReady")
        self.two_groups()

    def two_groups(self):
        """A call between two agents, offered from 100 to the one and from 120 to the other: it is the other group's too."""
        self.service("try", "makeCall", device="205", called="100")
        inner = max(one["call"] for one in self.calls())
        self.service("try", "phoneOffHook", call=inner, device="205")
        self.service("try", "setAgentState", agent="7", requested="ready")
        self.service("try", "answerCall", call=inner, device="201")
        self.service("try", "singleStepTransfer", call=inner, device="205", to="120")
        self.service("try", "setAgentState", agent="9", requested="ready")
        at = sorted((side["device"], side.get("group")) for one in self.calls() if one["call"] == inner for side in one["connections"])
        self.expect("a call of two groups", at, [("201", "100"), ("203", "120")])
        self.refused("a call that is another group's too", "clearConnection", call=inner, device="201")
        self.refused("by the other's station", "clearConnection", call=inner, device="203")
        self.service("try", "clearConnection", call=inner, device="201")
        for agent in ("7", "9"):
            self.service("try", "setAgentState", agent=agent, requested="notReady")

    def try_priorities(self):
        for group in ("100", "110"):
            self.allowed(f"priority of {group}", "setGroupPriority", device=group, priority=5)
        for group in ("120", "201", "1000", None, ["100"]):
            self.refused(f"priority of {group}", "setGroupPriority", device=group, priority=5)

    def try_others(self):
        for service in ("addGroup", "addStation", "addAgent", "arriveCall", "makeCall", "phoneOffHook", "answerCall", "rejectCall", "holdCall", "retrieveCall", "singleStepTransfer", "monitorStart",
                        "monitorStop", "tick", "changeGroup", "changeAgent", "", None, ["setGroupPriority"]):
            self.refused(f"service {service}", service, device="100", agent="7", name="x", ring=1, wrap=1, call=1, to="110", caller="1", called="100", monitor=1, priority=1)
        self.refused("another's key", "setGroupPriority", login="sup", device="100", priority=1)
        status, _, _ = self.ask("POST", "/csta", '{"requester":"pbx","invoke":77,"service":"setGroupPriority","device":"100","priority":1}', "lea")
        self.expect("the key of another login", status, 403)
        status, _, _ = self.ask("POST", "/csta", '{"requester":"lea","invoke":77,"service":"setGroupPriority","device":"120","device":"100","priority":1}', "lea")
        self.expect("a member twice", status, 403)

    def try_moments(self):
        """What holds a moment ago counts no more: each request is judged by the desk as it is then."""
        for turn in range(20):
            groups = ["120"] if turn % 2 else ["100"]
            self.service("try", "setAgentState", agent="7", requested="loggedOff")
            self.log_on("7", "201", groups)
            status, told = self.request("lea", "setAgentState", agent="7", requested="ready")
            self.see("judged at the moment", (status == 200) == (groups == ["100"]), (groups, told))
        (self.folder / "roles").write_text((self.folder / "roles").read_text().replace("groups=100,110", "groups=110"))
        self.refused("a group that was taken away", "setGroupPriority", device="100", priority=1)
        (self.folder / "roles").write_text((self.folder / "roles").read_text().replace("groups=110", "groups=100,110"))
        self.desk.stop()
        status, _ = self.request("lea", "setAgentState", agent="7", requested="notReady")
        self.expect("without a desk", status, 502)
        self.start_desk()

    def try_again(self):
        """One that is sent again is answered as before, though it wouldn't be allowed any more."""
        self.service("try", "setAgentState", agent="7", requested="loggedOff")
        self.log_on("7", "201", ["100"])
        body = '{"requester":"lea-x","invoke":1,"service":"setAgentState","agent":"7","requested":"loggedOff"}'
        first = self.ask("POST", "/csta", body, "lea")[::2]
        self.expect("sent again", (first[0], self.ask("POST", "/csta", body, "lea")[::2]), (200, first))
        self.expect("with another key", self.ask("POST", "/csta", body.replace("lea-x", "lea-y"), "lea").status, 403)
