"""Cases of a plan and of a working day: what an office adds, names anew and forgets; done wrong first, and then right."""
import json
import re

from office import FILE, HOME, PLAN, STATE, Office

HEADER = PLAN.partition("\n")[0] + "\n"
DESK = "unix:/run/acd/desk.sock"
SECOND = HEADER + "group,100,Bills,3,2\nstation,201,,,\nstation,202,,,\nagent,7,Ana,,\nagent,8,Ben,,\n"
NOON = "Change the plan by a file"
LINE = "acdctl plan --changes plan.csv --from unix:/run/acd/desk.sock --send"


class Plans(Office):
    def plan_now(self):
        """The plan of the desk that serves, as a file has it."""
        return self.done("acdctl", "plan", "--from", DESK)

    def at_noon(self, plan):
        """The status of the page's line over this plan, in root's home, and what it prints."""
        self.container.put(f"{HOME}/plan.csv", plan)
        return self.typed(self.recipe(NOON, LINE))

    def imported(self, plan, what):
        """The status of an import by the desk's user over the stopped file, and the statuses of its rows."""
        self.container.put(f"{STATE}/plan.csv", plan)
        status, said = self.ran("acd", "import", "--file", FILE, "--plan", f"{STATE}/plan.csv", user="acd")
        self.expect(f"{what}: only rows are answered ({said[-200:]})", status == 1 or all(re.match(r"\d{3} \{", line) for line in said.splitlines()))
        return status, [line.partition(" ")[0] for line in said.splitlines()]

    def try_home(self):
        """A plan in root's home, which the desk's user can't read; and as the page has it."""
        self.container.put(f"{HOME}/plan.csv", PLAN)
        said = self.typed(f"runuser -u acd -- acd import --file {FILE} --plan plan.csv")
        self.expect("a plan in root's home", said, (1, "acd: cannot open plan.csv\n"))
        status, said = self.typed(self.recipe("A plan by acd import", "systemctl stop acd"))
        self.expect(f"by the page's lines ({said})", (status, said.count("200 {")), (0, 3))
        self.serves("with the plan")
        self.expect("it is there", self.plan_now(), PLAN)

    def try_faulty(self):
        """A plan with a fault is refused whole: no desk is begun by it, and nothing of it is taken."""
        self.done("systemctl", "stop", "acd")
        for what, plan, line in (("semicolons", PLAN.replace(",", ";"), "plan header"), ("no header", PLAN.partition("\n")[2], "plan header"), ("rows of a spreadsheet's end", PLAN + ",,,,\n", "plan row 4: kind"),
                                 ("a name that isn't ASCII", HEADER + "group,100,Billing,3,2\nagent,9,Jos\u00e9 M\u00fcller,,\n", "plan row 2: name")):
            self.container.put(f"{STATE}/plan.csv", plan)
            for file in (FILE, f"{STATE}/none.db"):
                self.expect(f"{what}, {file}", self.ran("acd", "import", "--file", file, "--plan", f"{STATE}/plan.csv", user="acd"), (1, f"acd: {line}\n"))
        self.expect("no desk is begun", [name for name in self.names() if name.startswith("none")], [])
        self.restarts("with the plan that it had")
        self.expect("which is as it was", self.plan_now(), PLAN)

    def try_second_plan(self):
        """A second plan by an import: one new agent, a station in the middle, another name. Then by the page's line, while the desk serves."""
        self.done("systemctl", "stop", "acd")
        self.expect("a second plan by an import", self.imported(SECOND, "a second plan"), (0, ["422", "200", "422", "409", "200"]))
        self.restarts("with half of it")
        self.expect("Ben alone has come", self.plan_now(), PLAN + "agent,8,Ben,,\n")
        process = self.show("MainPID")
        status, said = self.at_noon(SECOND)
        self.expect(f"by the page's line ({said})", (status, said.count("\n"), "changeGroup" in said, "addStation" in said, said.endswith("acdctl plan: 1 added, 1 changed, 0 refused\n")), (0, 3, True, True, True))
        self.expect("all of it is there", self.plan_now(), SECOND)
        self.expect("the desk wasn't stopped", self.show("MainPID"), process)
        self.expect("the same once more sends nothing", self.at_noon(SECOND), (0, "acdctl plan: 0 added, 0 changed, 0 refused\n"))

    def try_later_ones(self):
        """An agent's name, a ring, and one row less, which is told and stays."""
        third = SECOND.replace("Ben", "Benjamin").replace("Bills,3,2", "Bills,4,2").replace("station,202,,,\n", "")
        status, said = self.at_noon(third)
        self.expect(f"another name, another ring ({said})", (status, "acdctl plan: the desk has more than the plan: station 202\n" in said, said.count("\n")), (0, True, 4))
        self.expect("they are there, and the station too", self.plan_now(), third.replace("station,201,,,\n", "station,201,,,\nstation,202,,,\n"))

    def try_stopped(self):
        """The same where nothing serves the file; who waits stands in what comes between, and nobody else reads that."""
        fourth = self.plan_now().replace("Ana", "Anna")
        self.done("systemctl", "stop", "acd")
        self.container.put(f"{STATE}/fourth.csv", fourth)
        status, said = self.typed(self.recipe(NOON, "(umask 077", {"office.db": "desk.db", "second.csv": "fourth.csv"}), user="acd", at=STATE)
        self.expect(f"by the page's lines ({said})", (status, said.count("\n"), said.startswith("200 {")), (0, 1, True))
        self.expect("nobody else reads what comes between", self.done("stat", "-c", "%U %a", f"{STATE}/snapshot"), "acd 600\n")
        self.restarts("with another name")
        self.expect("it is there", self.plan_now(), fourth)

    def try_names(self):
        """A name that isn't ASCII: refused, with nothing of it taken; the page says what to write."""
        before = self.plan_now()
        status, said = self.at_noon(SECOND + "agent,9,Jos\u00e9 M\u00fcller,,\n")
        self.expect_in("it is refused", said, "^acdctl plan: plan row 6: name\n")
        self.expect_in("and why", said, r"(?m)^acdctl plan: that is line 7: an agent's name must be .* of ASCII, .* \(Mueller for Müller\)$")
        self.expect("nothing is taken", (status, self.plan_now()), (1, before))
        self.expect_in("the page says what to write", self.page("Umlauts and accents in a name"), "a name is of ASCII, `Mueller` for Müller")
        written = self.at_noon(SECOND + "agent,9,Jose Mueller,,\n")[0]
        self.expect("so written it is taken", (written, "agent,9,Jose Mueller,,\n" in self.plan_now()), (0, True))

    def try_served_file(self):
        """A report, an export and the records of the file that is served are refused; what the page says in their place has them."""
        for words in (("report",), ("export",), ("import", "--plan", f"{STATE}/plan.csv")):
            self.expect(f"{words[0]} over the served file", self.ran("acd", *words, "--file", FILE, user="acd"), (4, f"acd: {FILE} is open elsewhere\n"))
        self.expect("the records of the served file", self.ran("acd-calls", "--file", FILE, user="acd"), (1, f"acd-calls: {FILE} is open elsewhere: take a copy of it, by acd-copy, or add --live\n"))
        self.expect_in("the page says what to ask", self.page("A line of acd"), "is open elsewhere.*`/reports/queues` has the report, and a copy .* can be exported")
        self.expect_in("which has it", self.read("/reports/queues"), r"(?m)^100 .* Bills$")
        self.expect("the records by --live", self.ran("acd-calls", "--file", FILE, "--live", user="acd")[0], 0)
        self.expect("a copy", self.ran("systemctl", "start", "acd-copy"), (0, ""))
        copy = f"{STATE}/copies/{self.names(f'{STATE}/copies')[0]}/desk.db"
        self.expect_in("and the export of it", self.ran("acd", "export", "--file", copy, user="acd")[1], r"\Anumber,moment,event,")

    def try_forgotten(self):
        """An agent who forgot to log off, and a call that nobody has any more: a supervisor can't, and the page's lines do."""
        wanted = (("setAgentState", {"agent": "7", "requested": "loggedOn", "device": "201", "group": "100"}), ("arriveCall", {"caller": "0301234", "called": "100"}))
        for invoke, (service, members) in enumerate(wanted, 1):
            self.expect(f"{service} is taken", "result" in self.service("day", invoke, service, **members))
        number = json.loads(self.read("/snapshot"))["calls"][0]["call"]
        self.inside("/etc/acd/roles").write_text("sup supervisor\n")
        refused = self.service("sup", 1, "setAgentState", "gate", ("-H", "X-Login: sup"), agent="7", requested="loggedOff")
        self.expect("by a supervisor", refused["error"]["name"], "forbidden")
        status, said = self.typed(self.recipe("An agent forgot to log off, or a call hangs", "now=$(date +%s)", {'"call":12': f'"call":{number}', "calls/12": f"calls/{number}"}))
        self.expect(f"by the page's lines ({said})", (status, said.count('"result"'), "error" in said), (0, 2, False))
        now = json.loads(self.read("/snapshot"))
        self.expect("nobody is logged on, no call is there", (now["calls"], [one for one in now["agents"] if "device" in one]), ([], []))

    def try_roles(self):
        """No file of roles, and one that can't be read as such: told in the journal. One that an editor of another system wrote: its first login has its role."""
        roles = self.inside("/etc/acd/roles")
        for what, data, line in (("no file", None, "acdctl gate: /etc/acd/roles can't be read: No such file or directory"),
                                 ("a word that is none", b"pbx exchnge\n", "acdctl gate: /etc/acd/roles, line 1: pbx is refused: its role is exchnge")):
            roles.unlink(missing_ok=True)
            if data:
                roles.write_bytes(data)
            self.expect(f"{what}: nothing is let through", self.as_login("pbx", 2)["error"]["name"], "forbidden")
            self.expect(f"{what}: it is told", line in self.journal("acd-gate").splitlines())
        roles.write_bytes(b"\xef\xbb\xbfpbx exchange\r\nana agent 7\r\n")
        self.expect("the first login's tick", self.as_login("pbx", 3).get("result"), {})

    def as_login(self, login, invoke):
        """What a tick of a login is answered, behind the proxy's check of a password."""
        return self.service(login, invoke, "tick", "gate", ("-H", f"X-Login: {login}"))

    def try_twice_and_too_many(self):
        """One number twice, and more groups than a desk takes: by an import rows are lost, with status 0; by the page's line the one is refused whole, the other one is told."""
        twice, before = SECOND + "agent,8,Benjamin,,\n", self.plan_now()
        many = HEADER + "".join(f"group,{300 + number},Group {number},3,2\n" for number in range(65))
        self.done("systemctl", "stop", "acd")
        for number, (what, plan, wanted) in enumerate((("twice", twice, "409"), ("too many", many, "409"))):
            self.container.put(f"{STATE}/plan.csv", plan)
            status, said = self.ran("acd", "import", "--file", f"{STATE}/other-{number}.db", "--plan", f"{STATE}/plan.csv", user="acd")
            self.expect(f"{what}, by an import", (status, said.splitlines()[-1][:3]), (0, wanted))
        self.restarts("with its own plan")
        self.expect("twice, by the page's line", self.at_noon(twice), (1, "acdctl plan: plan row 6: number 8 appears twice\n"))
        self.expect("nothing is taken", self.plan_now(), before)
        status, said = self.at_noon(many)
        lines = [line for line in said.splitlines() if line.startswith("acdctl plan: addGroup")]
        self.expect(f"too many, by the page's line: {lines}", (status, lines), (1, [f"acdctl plan: addGroup {300 + number}: 409 planFull" for number in (63, 64)]))
