"""What a monitor is told: whether all is well, and figures, which python3-prometheus-client's parser reads; and what the journal has of who came."""
import http.client
import signal
import time
from base64 import b64encode
from collections import Counter

from place import PATIENCE, Place, token_of
from trial import ANY, until

HERE, ELSEWHERE = "127.0.0.1", "127.0.0.2"


class Monitor(Place):
    ROLES = {"sup": "supervisor", "ana": "agent agent=7", "copy": "follow", "planner": "office", "clerk": "office"}

    def told(self, path, login=None, address=HERE):
        """Status and body, asked from an address."""
        fields = {"Authorization": f"Basic {b64encode(f'{login}:secret'.encode()).decode()}"} if login else {}
        connection = http.client.HTTPSConnection("127.0.0.1", self.port, timeout=PATIENCE, context=ANY, source_address=(address, 0))
        try:
            connection.request("GET", path, headers=fields)
            reply = connection.getresponse()
            return reply.status, reply.read()
        finally:
            connection.close()

    def samples(self):
        """Each sample's value, by its name and its labels."""
        # only here: no other part needs it
        from prometheus_client.openmetrics.parser import text_string_to_metric_families
        time.sleep(1.1)
        families = text_string_to_metric_families(self.told("/metrics")[1].decode())
        return {(sample.name, tuple(sorted(sample.labels.items()))): sample.value for family in families for sample in family.samples}

    def try_who_may_ask(self):
        """This machine, a login, and for figures one that reads all."""
        for path, whom in (("/health", {None: 401, "ana": 200, "copy": 200, "sup": 200}), ("/metrics", {None: 401, "ana": 403, "copy": 403, "sup": 200})):
            self.expect(f"{path} on this machine", self.told(path)[0], 200)
            self.expect(f"{path} elsewhere", {login: self.told(path, login, ELSEWHERE)[0] for login in whom}, whom)
        self.expect("a forged address", self.ask("GET", "/metrics", X_Address=HERE, X_Login="sup").status, 200)
        self.expect("well", self.told("/health", "ana", ELSEWHERE), (200, b"ok\n"))

    def try_figures(self):
        """Each as the desk itself tells it."""
        for number, group in enumerate(("100", "100", "110")):
            self.service("try", "arriveCall", caller=f"030{number}", called=group)
        self.service("try", "setAgentState", agent="7", requested="loggedOn", device="201", groups=["120"])
        self.service("try", "tick")
        snapshot = self.direct("GET", "/snapshot").value
        found = self.samples()
        for group, waiting in (("100", 2), ("110", 1), ("120", 0)):
            of_group = (("group", group),)
            since = [one["queued"] for call in snapshot["calls"] for one in call["connections"] if one["device"] == group]
            self.expect(f"who waits in {group}", (len(since), found["acd_waiting_calls", of_group], found["acd_calls_entered_total", of_group]), (waiting, waiting, waiting))
            self.see(f"the longest of {group}", abs(found["acd_longest_wait_seconds", of_group] - (time.time() - min(since) if since else 0)) < PATIENCE, found)
            self.see(f"its name: {group}", ("acd_group_info", (("group", group), ("name", f"Group {group}"))) in found, list(found))
        states = Counter(agent["state"] for agent in snapshot["agents"])
        self.expect("agents", {labels[0][1]: value for (name, labels), value in found.items() if name == "acd_agents"}, {"notReady": states["notReady"], "loggedOff": states["null"]})
        self.expect("requests", found["acd_requests_total", ()], self.direct("GET", "/requests?after=999999999").value["last"])
        self.expect("the last tick", found["acd_last_tick_timestamp_seconds", ()], snapshot["moment"])
        self.expect("nothing is due, and all is well", (found["acd_tick_overdue_seconds", ()], found["acd_healthy", ()]), (0, 1))

    def try_a_follower(self):
        last = self.direct("GET", "/requests?after=999999999").value["last"]
        self.expect("it asks", self.ask("GET", f"/requests?after={last - 1}", login="copy").status, 200)
        self.ask("GET", "/requests?after=1", login="planner")
        self.expect("it is told", {labels: value for (name, labels), value in self.samples().items() if name == "acd_follow_request"}, {(("login", "copy"),): last})

    def try_a_copy(self):
        moment = int(time.time()) - 100
        (self.folder / "copy").write_text(f"{moment} sound {moment}\n")
        found = self.samples()
        self.expect("when, and how", (found["acd_good_copy_timestamp_seconds", ()], found["acd_copy_verdict", (("verdict", "sound"),)], found["acd_copy_verdict", (("verdict", "failed"),)]), (moment, 1, 0))

    def try_a_desk_that_hangs(self):
        self.expect("before", self.told("/health"), (200, b"ok\n"))
        self.desk.process.send_signal(signal.SIGSTOP)
        try:
            began = time.monotonic()
            self.see("it is told", until(lambda: self.told("/health") == (503, b"desk\n"), PATIENCE))
            self.figure("until it is told, in seconds", time.monotonic() - began, 3)
            found = self.samples()
            self.expect("figures of the gate alone", (found["acd_healthy", ()], ("acd_requests_total", ()) in found, ("acd_gate_log_ins_total", ()) in found), (0, False, True))
        finally:
            self.desk.process.send_signal(signal.SIGCONT)
        self.see("it is well again", until(lambda: self.told("/health") == (200, b"ok\n"), PATIENCE))

    def try_journal(self):
        """Who came, was refused, took something and went, with the address that nginx sees."""
        (self.folder / "records/groups").mkdir(parents=True)
        (self.folder / "records/groups/2026-11-27.csv").write_text("group,entered\n")
        before = len((self.folder / "gate-errors").read_text().splitlines())
        cookie = token_of(self.log_in("clerk", X_Address="192.0.2.66")[1])
        self.log_in("clerk", "guess")
        self.expect("a file", self.ask("GET", "/records/groups/2026-11-27.csv", cookie=cookie, X_Address="192.0.2.66").status, 200)
        self.expect("requests", self.ask("GET", "/requests", cookie=cookie).status, 200)
        self.ask("POST", "/logout", cookie=cookie)
        self.expect("the lines", (self.folder / "gate-errors").read_text().splitlines()[before:],
                    [f"acd-gate: {did}: clerk at 127.0.0.1" for did in ("log-in", "refused, wrong password", "groups/2026-11-27.csv taken", "requests read", "log-off")])
