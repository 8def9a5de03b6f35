"""Cases of the clock: one that was ahead once, and one that is set late; done wrong first, and then right. No clock is set here: a container has that of its machine."""
import json
import time

from office import FILE, STATE, Planned
from trial import Requests, compact

AHEAD = 720
# what waits for the clock, in the place of systemd-time-wait-sync, which passes over a container
WAITS = """[Unit]
DefaultDependencies=no
Before=time-sync.target
Wants=time-sync.target
[Service]
Type=oneshot
ExecStart=/bin/sleep 4
RemainAfterExit=yes
[Install]
WantedBy=sysinit.target
"""


class Clock(Planned):
    def try_plan(self):
        super().try_plan()
        self.set("ACD_STEP", "2")
        self.done("systemctl", "restart", "acd")

    def offers(self, requester):
        """An agent who is ready, and a call that is offered for three seconds; whether a tick takes it back."""
        wanted = [("setAgentState", {"agent": "7", "requested": "loggedOn", "device": "201", "group": "100"}), ("setAgentState", {"agent": "7", "requested": "ready"}),
                  ("arriveCall", {"caller": "0301234", "called": "100"})]
        for invoke, (service, members) in enumerate(wanted, 1):
            self.expect(f"{service} is taken", "result" in self.service(requester, invoke, service, **members))
        return self.eventually(lambda: '"noAnswer"' in self.read("/events?after=0"), True, 8)

    def clear(self, requester):
        """No call, and nobody logged on."""
        for invoke, call in enumerate(json.loads(self.read("/snapshot"))["calls"], 10):
            for device in [one["device"] for one in call["connections"]][:1]:
                self.service(requester, invoke, "clearConnection", call=call["call"], device=device)
        self.service(requester, 20, "setAgentState", agent="7", requested="loggedOff")

    def try_ahead(self):
        """A request of twelve minutes ahead: the desk starts, an offer isn't taken back, and that is told."""
        self.done("systemctl", "stop", "acd")
        moment, mark = int(time.time()) + AHEAD, self.mark()
        request = compact(Requests()("tick", "early"))
        self.expect("a request of a clock that is ahead", self.container.shell(f"echo '{moment} {request}' | acd lines --file {FILE}", user="acd")[1].startswith("200 "))
        self.restarts("with a moment ahead")
        self.expect("an offer isn't taken back", self.offers("ahead"), False)
        wanted = f"acdctl ready: the desk's time is over a minute ahead of this machine's clock: until {time.strftime('%Y-%m-%d %H:%M:%S', time.gmtime(moment))} UTC no ring and no after-call work ends by a tick"
        lines = self.eventually(lambda: self.said_since(mark), [wanted], 75)
        self.expect("and that is told, once", lines, [wanted])
        said = self.container.shell(f"export TZ=UTC; {self.recipe('The clock was wrong', 'date -d @')}")[1]
        self.expect("by hand, as the page says", said, time.strftime("%a %b %e %H:%M:%S UTC %Y\n", time.gmtime(moment)))

    def try_new_file(self):
        """One of the ways out: the same plan in a new file, by the page's recipe, as root, while no call is live."""
        self.clear("out")
        self.expect("the recipe", self.typed(self.recipe("A new year in a new file", "curl -s --unix-socket"))[0], 0)
        self.serves("in a new file")
        self.expect("the note of the old pair went with it", [name for name in self.names() if name.startswith("desk.db")], ["desk.db", "desk.db-pair", "desk.db-wal"])
        self.expect("an offer is taken back", self.offers("new"), True)

    def try_late_clock(self):
        """A machine that is cut off, and whose clock is set four seconds after its start, by a service that was enabled for it: the desk waits for that."""
        self.container.put("/etc/systemd/system/clock-wait.service", WAITS)
        self.done("systemctl", "enable", "clock-wait")
        self.container.end()
        self.container.boot()
        self.serves("behind a start of the machine")
        set_at, began = (int(self.show(f"{what}TimestampMonotonic", unit=unit)[0]) for what, unit in (("ActiveEnter", "clock-wait"), ("ExecMainStart", "acd")))
        self.expect("it began when the clock was set", set_at > 0 and began >= set_at)
        self.expect("nothing has failed", self.ran("systemctl", "--failed", "--quiet"), (0, ""))
        self.expect("all is there", '"Ana"' in self.read("/snapshot"))
        self.expect("the copy's folder and the note are there", {"desk.db", "desk.db-pair"} <= set(self.names(STATE)))
