"""The page of the first hour, typed from its second step on over a new package: what it makes is what it says. Two clicks of it are asked as the office's page asks."""
import json

from office import HOME, Office
from sections import section, typed

STEPS = ("2. Make a certificate", "3. Put nginx in front", "4. Make three logins", "5. Make a plan")
PASSWORD = "correct-horse"
AGENT = {"requester": "chef-1", "invoke": 1, "service": "addAgent", "agent": "7", "name": "Ana"}
LOGIN = {"login": "ana", "role": "agent", "agent": "7", "password": PASSWORD}
LOG_ON = {"requester": "ana", "invoke": 1, "service": "setAgentState", "agent": "7", "requested": "loggedOn", "device": "201", "group": "100"}
READY = {"requester": "ana", "invoke": 2, "service": "setAgentState", "agent": "7", "requested": "ready"}


class Hour(Office):
    included = ("apache2-utils", "nginx-light", "openssl", "strace")

    def step(self, heading):
        """The lines of a step, with a password where the page's lines ask for one."""
        page = self.inside("/usr/share/doc/acd/FIRST-HOUR.md").read_text()
        lines = typed(section(page, heading))
        self.expect(f"{heading} has lines", lines != "")
        return lines.replace("htpasswd -B", "htpasswd -b -B").replace("users $login;", f"users $login {PASSWORD};").replace("-u pbx ", f"-u pbx:{PASSWORD} ")

    def do(self, heading):
        status, said = self.typed(self.step(heading))
        self.expect(f"{heading} works ({said[-300:]})", status, 0)
        return said

    def ask(self, login, path, body=None):
        """What nginx answers to a login."""
        words = ["curl", "-sk", "-u", f"{login}:{PASSWORD}", f"https://127.0.0.1:8443{path}"]
        if body:
            words += ["-H", "Content-Type: application/json", "-d", json.dumps(body)]
        return self.done(*words)

    def try_hour(self):
        """Step by step, up to a call that rings at the agent."""
        self.expect("a new desk", self.read("/queues/100").count("notFound"), 1)
        for heading in STEPS:
            said = self.do(heading)
        self.expect("the plan, as the page says", said.splitlines()[-1:], ["acdctl plan: 2 added, 0 changed, 0 refused"])
        self.expect_in("chef plans the agent", self.ask("chef", "/office/plan", AGENT), '"result":{}')
        self.expect("and gives the login", "error" in self.ask("chef", "/office/login", LOGIN), False)
        for body, state in ((LOG_ON, "notReady"), (READY, "ready")):
            self.expect(f"ana is {state}", json.loads(self.ask("ana", "/csta", body)).get("result"), {"state": state})
        self.expect_in("a call comes", self.do("7. Let a call come"), '"result":{"call":1}')
        self.expect_in("it rings at Ana's", self.ask("sup", "/calls/1"), '"device":"201"[^}]*"state":"alerting"')
        self.expect_in("a copy", self.do("8. Make a copy"), "sound: /var/lib/acd/copies/")
        self.expect_in("a watch", self.do("9. Keep watch"), "(?m)^no fault")
        self.expect(f"nothing has failed ({self.journal('acd-records')[-300:]})", self.ran("systemctl", "--failed", "--quiet"), (0, ""))
        self.expect("each night it is pruned", self.ran("systemctl", "is-enabled", "acd-prune.timer"), (0, "enabled\n"))

    def try_home(self):
        """What was made in root's home is the plan alone."""
        self.expect("the plan", sorted(path.name for path in self.inside(HOME).iterdir() if path.suffix == ".csv"), ["plan.csv"])
