"""Who reads what, and what an agent's page is told."""
import json
import signal
import threading
import time
import urllib.parse

from place import Place, plan_of
from trial.pace import slowness

READS = ("/snapshot", "/history?after=0", "/events?after=0", "/agents/7", "/calls/1", "/devices/100", "/devices/201", "/queues/100", "/reports/queues", "/monitors/1/events")
ALL = {"cleo", "sup", "lea", "planner", "pbx"}
FILES = {"records/2026-11-27.csv": "number,caller,groups\n1,0301,100\n2,0302,110 100\n3,0303,110\n4,\"0304\nx\",\n5,100,1000\n", "groups/2026-11-27.csv": "quarter,group,entered\n08:00,100,3\n08:00,110,1\n",
         "groups/2026-11-26.csv": "\ufeffgroup,entered\n'0100,3\n100,4\n", "agents/2026-11-26.csv": "agent,groups\n7,'0100 100\n8,'0100\n9,'100 110\n",
         "agents/2026-11-27.csv": "day,agent\n2026-11-27,7\n", "records/notes.csv": "x\n"}
OF_100 = {"records/2026-11-27.csv": "number,caller,groups\n1,0301,100\n2,0302,110 100\n", "groups/2026-11-27.csv": "quarter,group,entered\n08:00,100,3\n",
          "groups/2026-11-26.csv": "\ufeffgroup,entered\n100,4\n", "agents/2026-11-26.csv": "agent,groups\n7,'0100 100\n9,'100 110\n"}


class Readers(Place):
    PLAN = plan_of(agents=("7", "8", "9", "10"))
    ROLES = {"ana": "agent agent=7", "ben": "agent agent=8 groups=110", "cleo": "agent agent=9 reads=all", "dora": "agent agent=10 reads=none", "sup": "supervisor", "none": "supervisor reads=none",
             "lea": "lead groups=100", "planner": "office", "pbx": "exchange", "nobody": None, "odd": "supervisor reads=own", "copy": "follow"}


class Reads(Readers):
    def try_reads(self):
        """Each read by each role; what is read is the desk's, byte for byte."""
        self.service("try", "monitorStart", device="100")
        self.service("try", "arriveCall", caller="0301234567", called="100")
        for login in self.ROLES:
            for path in READS:
                before, found = self.direct("GET", path)[::2], self.ask("GET", path, login=login)[::2]
                if login in ALL:
                    # a wait may be a second longer by now
                    self.see(f"{login} reads {path}", found in (before, self.direct("GET", path)[::2]) and found[0] == 200, found)
                else:
                    self.expect(f"{login} doesn't read {path}", found, (403, b'{"error":{"code":41,"name":"forbidden"}}'))
            own, other = self.ask("GET", "/mine", login=login).status, self.ask("GET", "/mine?agent=8", login=login).status
            wanted = {"ana": (200, 403), "ben": (200, 200), "cleo": (200, 200), "dora": (403, 403), "none": (403, 403), "odd": (403, 403), "nobody": (403, 403), "copy": (403, 403)}.get(login, (403, 200))
            self.expect(f"{login} at /mine, and that of 8", (own, other), wanted)
            self.expect(f"{login} is told who it is", self.ask("GET", "/who", login=login).status, 403 if login in ("odd", "nobody") else 200)
            self.expect(f"{login} posts on a read", self.ask("POST", "/snapshot", "", login=login).status in (403, 405), True)

    def try_records(self):
        for name, text in FILES.items():
            (self.folder / "records" / name).parent.mkdir(parents=True, exist_ok=True)
            (self.folder / "records" / name).write_text(text)
        for login in self.ROLES:
            for name, text in FILES.items():
                wanted = {"planner": (200, text), "lea": (200, OF_100[name]) if name in OF_100 else (403, None)}.get(login, (403, None))
                if "notes" in name:
                    wanted = 404 if login in ("planner", "lea") else 403, None
                reply = self.ask("GET", f"/records/{name}", login=login)
                self.expect(f"{login} at {name}", (reply.status, reply.text if reply.status == 200 else None), wanted)
            sums = self.ask("GET", "/records/sums?kind=groups&since=2026-11-26&until=2026-11-28&by=day", login=login)
            # the files are by no formulas, which is told
            self.expect(f"{login} at the sums", (sums.status, sums.value.get("others"), sums.value.get("missing")),
                        (200, ["2026-11-26", "2026-11-27"], ["2026-11-28"]) if login in ("planner", "lea") else (403, None, None))
        self.expect("the days", self.ask("GET", "/records/", login="lea").value, {"agents": ["2026-11-26", "2026-11-27"], "groups": ["2026-11-26", "2026-11-27"], "records": ["2026-11-27"]})
        for name in ("records/2026-11-28.csv", "records/../roles", "../roles", "records/%2e%2e/%2e%2e/roles", "records", "roles/2026-11-27.csv", "records/2026-11-27.csv/", "records/\u0662026-11-27.csv"):
            self.expect(f"no file {name!r}", self.ask("GET", f"/records/{urllib.parse.quote(name, safe='/%.')}", login="planner").status, 404)

    def try_heavy_reads(self):
        """Four of a login at a time go to the desk, here one that is halted; a fifth is 429 at once. Others, and light reads, wait as ever."""
        heavy, answers = ("/snapshot", "/history?after=0", "/calls/1"), []

        def ask(login, path):
            answers.append((login, path, self.ask("GET", path, login=login).status))

        self.desk.process.send_signal(signal.SIGSTOP)
        try:
            asked = [threading.Thread(target=ask, args=("sup", heavy[number % 3])) for number in range(4)]
            for one in asked:
                one.start()
            time.sleep(1)
            for path in heavy:
                self.expect(f"a fifth, {path}", self.ask("GET", path, login="sup").status, 429)
            self.expect("four wait", answers, [])
            asked += [threading.Thread(target=ask, args=each) for each in [("lea", "/snapshot"), ("sup", "/events?after=0"), ("sup", "/queues/100")]]
            for one in asked[4:]:
                one.start()
            time.sleep(1)
            self.expect("so do others", answers, [])
        finally:
            self.desk.process.send_signal(signal.SIGCONT)
        for one in asked:
            one.join()
        self.expect("all of them are answered", sorted(status for _, _, status in answers), [200] * 7)
        self.expect("the next one too", [self.ask("GET", "/snapshot", login="sup").status for _ in range(3)], [200] * 3)

    def try_queries(self):
        for query in ("after=x", "after=-1", "names=x", "hold=x", "hold=-1", "agent=x", "after=" + "1" * 16, "agent=1234567890"):
            self.expect(f"/mine?{query}", self.ask("GET", f"/mine?{query}", login="cleo").status, 400)


class Page:
    """An agent's page as a program."""

    def __init__(self, place, login):
        self.place, self.login, self.after, self.names, self.told, self.known = place, login, 0, 0, None, {}

    def ask(self, more=""):
        began = time.monotonic()
        reply = self.place.ask("GET", f"/mine?after={self.after}&names={self.names}{more}", login=self.login)
        if reply.status != 200:
            self.place.see("/mine is answered", False, reply)
        self.told = reply.value
        self.after = self.told.get("number", 0)
        self.known = self.told.get("names", self.known)
        self.names = self.known["number"] if self.known else 0
        return time.monotonic() - began

    def until(self, what, holds, seconds, more=""):
        """Asks until it is told so; how long that took. On a busy machine it asks for longer."""
        began = time.monotonic()
        while time.monotonic() - began < seconds or time.monotonic() - began < seconds * slowness():
            if self.told and holds(self.told):
                return time.monotonic() - began
            self.ask(more)
        self.place.see(what, False, self.told)
        return time.monotonic() - began


class Mine(Readers):
    @classmethod
    def setUpClass(cls):
        super().setUpClass()
        cls.page = Page(cls, "ana")

    def try_first(self):
        self.page.ask()
        self.expect("one who is logged off", (self.page.told["agent"], self.page.told["calls"], self.page.told["groups"], self.page.told["live"]),
                    ({"agent": "7", "name": "Agent 7", "since": 0, "state": "null"}, [], [], True))
        names = self.page.told["names"]
        self.expect("names", [names["agents"][0], names["groups"], names["stations"]],
                    [{"agent": "7", "name": "Agent 7"}, [{"device": group, "name": f"Group {group}"} for group in ("100", "110", "120")], ["201", "202", "203", "204"]])
        ben = Page(self, "ben")
        ben.ask()
        self.expect("the groups of a line", [group["device"] for group in ben.told["groups"]], ["110"])

    def try_held(self):
        took = self.page.ask()
        self.see("without news it is held for 20 s", 19 < took < 22 * slowness(), took)
        self.see("names come once", "names" not in self.page.told, self.page.told)
        took = self.page.ask("&hold=2")
        self.see("a page may have it held for less", 1.5 < took < 3 * slowness(), took)
        told = threading.Timer(1.0, lambda: self.service("try", "setAgentState", agent="7", requested="loggedOn", device="201", groups=["110", "100"]))
        told.start()
        took = self.page.until("the log-on is told", lambda mine: mine["agent"].get("device") == "201" and mine["agent"].get("groups") == ["100", "110"], 5)
        self.see("soon", took < 2 * slowness(), took)
        self.expect("its queues", [group["device"] for group in self.page.told["groups"]], ["100", "110"])
        self.page.until("where somebody is logged on is told", lambda _: {"agent": "7", "device": "201", "name": "Agent 7"} in self.page.known["agents"], 14)

    def try_own(self):
        call = self.service("try", "arriveCall", caller="0301234567", called="100")["call"]
        self.page.until("the waiting call", lambda mine: mine["groups"][0]["calls"], 5)
        found = self.page.told["groups"][0]
        self.expect("a queue", (found["calls"][0]["call"], found["calls"][0]["caller"], found["loggedOn"], found["ready"], found["name"]), (call, "...567", 1, 0, "Group 100"))
        self.see("no number of another's call", "0301234567" not in json.dumps(self.page.told), self.page.told)
        self.service("try", "setAgentState", agent="7", requested="ready")
        self.page.until("it rings", lambda mine: mine["calls"], 5)
        told = self.page.told["calls"][0]
        self.expect("an own call, whole", (told["call"], told["caller"], told["called"], [(side["device"], side["state"], side.get("group")) for side in told["connections"] if side["device"] == "201"]),
                    (call, "0301234567", "100", [("201", "alerting", "100")]))
        status, _ = self.request("ana", "answerCall", call=call, device="201")
        self.expect("answered", status, 200)
        self.page.until("it is answered", lambda mine: mine["agent"]["state"] == "busy" and mine["calls"][0]["connections"][0]["state"] == "connected", 3)
        self.request("ana", "setAgentState", agent="7", requested="notReady")
        self.page.until("what is pending", lambda mine: mine["agent"].get("pending") == "notReady", 3)
        self.request("ana", "clearConnection", call=call, device="201")
        self.page.until("it is over", lambda mine: not mine["calls"] and mine["agent"]["state"] == "notReady" and "pending" not in mine["agent"], 3)

    def try_not_taken(self):
        """An offer that was taken back, the day, and which log-on it is."""
        before = self.page.told["agent"]["logOn"]
        self.service("try", "setAgentState", agent="7", requested="ready")
        call = self.service("try", "arriveCall", caller="0305555", called="110")["call"]
        self.page.until("another call rings", lambda mine: mine["calls"], 5)
        rings = self.page.told["calls"][0]["connections"][0]
        self.service("try", "rejectCall", call=call, device="201")
        self.page.until("it was taken back", lambda mine: "missed" in mine and mine["agent"]["state"] == "notReady", 3)
        missed = self.page.told["missed"]
        self.expect("which one", {name: missed[name] for name in ("call", "caller", "group", "since")}, {"call": call, "caller": "0305555", "group": "110", "since": rings["since"]})
        self.see("and until when", rings["since"] <= missed["moment"] <= time.time() + 1, missed)
        day = self.page.told["day"]
        self.expect("the day", (day["answered"], day["missed"], [(one["call"], one["caller"], one["group"]) for one in day["calls"]]), (1, 1, [(1, "0301234567", "100")]))
        self.see("its begin is a midnight", time.localtime(day["begins"])[3:6] == (0, 0, 0) and 0 <= time.time() - day["begins"] < 25 * 3600, day)
        self.expect("it is the same log-on", self.page.told["agent"]["logOn"], before)
        self.service("try", "setAgentState", agent="7", requested="loggedOff")
        self.service("try", "setAgentState", agent="7", requested="loggedOn", device="201", groups=["110", "100"])
        self.page.until("it is another one", lambda mine: mine["agent"].get("logOn", before) != before, 3)
        self.see("which begins without a missed offer", "missed" not in self.page.told, self.page.told)
        self.service("try", "clearConnection", call=call, device="110")

    def try_others(self):
        """Of others an agent learns names and stations, and nothing of their calls and states."""
        self.service("try", "setAgentState", agent="8", requested="loggedOn", device="202", groups=["120"])
        self.service("try", "setAgentState", agent="8", requested="ready")
        self.service("try", "arriveCall", caller="0307654321", called="120")
        self.page.until("where the other is", lambda _: {"agent": "8", "device": "202", "name": "Agent 8"} in self.page.known["agents"], 14)
        self.page.after = self.page.names = 0
        self.page.ask()
        text = json.dumps(self.page.told)
        self.see("nothing of another group's call", "7654321" not in text and "...321" not in text, text)
        self.expect("another's entry", [one for one in self.page.told["names"]["agents"] if one["agent"] == "8"], [{"agent": "8", "device": "202", "name": "Agent 8"}])

    def try_hangs(self):
        """A desk that takes questions and doesn't answer is told as one that is away."""
        self.page.ask()
        self.desk.process.send_signal(signal.SIGSTOP)
        took = self.page.until("the desk hangs", lambda mine: mine["live"] is False, 12, "&hold=4")
        self.see("told within 7 s", took < 7 * slowness(), took)
        self.desk.process.send_signal(signal.SIGCONT)
        took = self.page.until("it goes on", lambda mine: mine["live"] is True, 12, "&hold=4")
        self.see("told within 7 s again", took < 7 * slowness(), took)

    def try_away(self):
        self.page.ask()
        self.desk.stop()
        took = self.page.until("the desk is away", lambda mine: mine["live"] is False, 8)
        self.see("told within 4 s", took < 4 * slowness(), took)
        self.see("all else is as it was", self.page.told["agent"]["device"] == "201", self.page.told)
        self.start_desk()
        took = self.page.until("it is back", lambda mine: mine["live"] is True, 8)
        self.see("told within 3 s", took < 3 * slowness(), took)
        self.desk.stop()
        for name in ("desk.db", "desk.db-wal"):
            (self.folder / name).unlink(missing_ok=True)
        self.start_desk()
        self.page.until("another file is in its place", lambda mine: mine["live"] and mine["agent"] == {"agent": "7"}, 8)
        self.stop_gate()
        self.start_gate()
        began = time.monotonic()
        self.page.ask()
        self.see("a gate that was started again answers at once", time.monotonic() - began < 3 * slowness() and self.page.told["agent"] == {"agent": "7"}, self.page.told)
