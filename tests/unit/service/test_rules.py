"""acdctl rules: what it checks, what it would do, and that it runs over a desk that serves."""
import contextlib
import os
import subprocess
import sys
import time
import unittest

import service_ground as ground
from acd_client import Client
from service_ground import PLAN, arrives, lines, said, until

DAY = 86400
# a Monday, 0:00 UTC
MONDAY = 1799020800
RULES = """\
zone = "UTC"
hours = {mon-sun = ["08:00-18:00"]}

[groups.100]
rules = [
    {when = "closed", to = "110"},
    {when = "nobody", seconds = 600, to = "299", name = "empty"},
    {when = "full", calls = 2, end = true},
    {when = "long", seconds = 120, to = "110"},
]
"""
MORE = """\
0 {"requester":"plan","invoke":4,"service":"addGroup","device":"110","name":"Overflow","ring":20,"wrap":30}
0 {"requester":"plan","invoke":5,"service":"addStation","device":"299"}
"""


def asks(moment, requester, invoke, service, members):
    return f'{moment} {{"requester":"{requester}","invoke":{invoke},"service":"{service}",{members}}}\n'


def logs_on(moment, invoke, device="201", groups='"group":"100"'):
    return asks(moment, "ana", invoke, "setAgentState", f'"agent":"7","requested":"loggedOn","device":"{device}",{groups}')


def logs_off(moment, invoke):
    return asks(moment, "ana", invoke, "setAgentState", '"agent":"7","requested":"loggedOff"')


class Case(ground.Case):
    def setUp(self):
        super().setUp()
        self.rules = self.folder / "rules.toml"
        self.rules.write_text(RULES)

    def said(self, *words):
        """The status and the lines of a command, with R in the place of the rules' name."""
        done = said("rules", "--rules", self.rules, *words)
        return done.status, [line.replace(str(self.rules), "R") for line in (done.out + done.faults).splitlines()]


class Check(Case):
    def test_a_good_file(self):
        file = self.desk(PLAN + MORE)
        self.assertEqual(self.said("--check", "--file", file), (0, ["no fault was found in R: 4 rules of 1 group"]))
        self.rules.write_text('groups.110.rules = [{when = "long", seconds = 1, end = true}]\n')
        self.assertEqual(self.said("--check", "--file", file), (0, ["no fault was found in R: 1 rule of 1 group"]))

    def test_what_the_plan_doesnt_allow(self):
        wanted = [f"R, line {line}: {to} is neither a group nor a station of the plan" for line, to in ((6, 110), (7, 299), (9, 110))]
        self.assertEqual(self.said("--check", "--file", self.desk(PLAN)), (1, wanted))
        lines(self.file, MORE + logs_on(10, 1, "299"))
        self.assertEqual(self.said("--check", "--file", self.file), (1, ["R, line 7: 299 is a station at which agent 7 is logged on; a rule moves nobody to an agent"]))
        _, address = self.serves()
        self.assertEqual(self.said("--check", address), (1, ["R, line 7: 299 is a station at which agent 7 is logged on; a rule moves nobody to an agent"]))
        self.rules.write_text(RULES.replace("groups.100", "groups.120").replace('to = "299"', "end = true"))
        self.assertEqual(self.said("--check", address), (1, ["R, line 4: no group 120 is planned"]))

    def test_faults_of_the_file(self):
        """Without a look at the desk."""
        self.rules.write_text(RULES.replace("seconds = 120", "seconds = true"))
        self.assertEqual(self.said("--check", "--file", "/none"), (1, ["R, line 9: seconds must be a whole number from 0 to 86400"]))
        self.assertEqual(self.said("http://127.0.0.1:1"), (2, ["acdctl rules: R, line 9: seconds must be a whole number from 0 to 86400"]))
        self.rules.unlink()
        self.assertEqual(self.said("--check"), (2, ["acdctl rules: R can't be read: No such file or directory"]))

    def test_a_plan_that_isnt_there(self):
        self.assertEqual(self.said("--check", "--file", self.folder / "none"), (1, [f"the desk's plan can't be compared: there is no file {self.folder}/none"]))

    def test_words(self):
        for words, pattern in ((["--file", "x"], "--file goes with --check or --dry-run"), (["--check", "--file", "x", "--login", "y"], "--login and --ca are for a desk that serves"),
                               (["--check", "--dry-run"], "not allowed with")):
            self.refused(["rules", *words], 2, pattern)


class DryRun(Case):
    def test_of_now(self):
        self.desk(PLAN + MORE + arrives(1) + arrives(2))
        _, address = self.serves()
        # the group is open all day, or never
        for hours, state, wanted in (('["00:00-24:00"]', "open", ["call 1 in 100, empty: to 299", "call 2 in 100, 100-long: to 110"]), ("[]", "closed", [f"call {call} in 100, 100-closed: to 110" for call in (1, 2)])):
            self.rules.write_text(RULES.replace('["08:00-18:00"]', hours))
            self.assertEqual(self.said("--dry-run", address), (0, [f"group 100: {state}, 2 waiting", *wanted]))
        self.rules.write_text('groups.110.rules = [{when = "long", seconds = 1, end = true}]\n')
        self.assertEqual(self.said("--dry-run", address), (0, ["group 110: 0 waiting"]))

    def day(self, *more):
        """What the last day of a file has: a list of requests, each after the moment of its hour of Monday."""
        self.desk(PLAN + MORE)
        lines(self.file, "".join(more))
        status, said = self.said("--dry-run", "--file", self.file)
        self.assertEqual(status, 0, said)
        return {name: count for name, count in (line.split(": ") for line in said)}

    def test_of_a_last_day(self):
        at = MONDAY + 10 * 3600
        found = self.day(
            # of the day before nobody counts
            logs_on(MONDAY - 10 * 3600, 1), arrives(1, moment=MONDAY - 10 * 3600), asks(MONDAY - 9 * 3600, "pbx", 2, "clearConnection", '"call":1,"device":"100"'),
            # at 10:00 two wait for 119 s and for 121 s
            arrives(3, moment=at), arrives(4, moment=at), asks(at + 119, "pbx", 5, "clearConnection", '"call":2,"device":"100"'), asks(at + 121, "pbx", 6, "clearConnection", '"call":3,"device":"100"'),
            # at 11:00 three at once, of which the last one is one too many; the others give up soon
            *(arrives(number, moment=at + 3600) for number in (7, 8, 9)), *(asks(at + 3610, "pbx", 6 + call, "clearConnection", f'"call":{call},"device":"100"') for call in (4, 5, 6)),
            # the agent leaves at 12:00; who comes 7:50 later has waited too long before ten minutes are over, and who comes after 20 minutes at once
            logs_off(at + 7200, 2), arrives(20, moment=at + 7670), arrives(21, moment=at + 8400),
            # somebody who is there, and one who comes at 17:59:30 and waits as the group closes
            logs_on(at + 9000, 3), arrives(22, moment=MONDAY + 18 * 3600 - 30), asks(MONDAY + 20 * 3600, "pbx", 23, "clearConnection", '"call":9,"device":"100"'))
        self.assertEqual(found, {"100-closed": "1 caller to 110", "empty": "1 caller to 299", "100-full": "1 caller ended", "100-long": "2 callers to 110"})

    def test_a_log_on_in_several_groups(self):
        """Only the kept request names them: the group has somebody until the agent leaves, and nobody ten minutes later."""
        at = MONDAY + 10 * 3600
        found = self.day(logs_on(at, 1, groups='"groups":["110","100"]'), arrives(1, moment=at + 10), asks(at + 100, "pbx", 2, "clearConnection", '"call":1,"device":"100"'),
                         logs_off(at + 200, 2), arrives(3, moment=at + 790), asks(at + 850, "pbx", 4, "clearConnection", '"call":2,"device":"100"'))
        self.assertEqual(found["empty"], "1 caller to 299")


class Runs(Case):
    """As a process over a desk that serves, by the clock of this machine."""

    def setUp(self):
        super().setUp()
        self.desk(PLAN + MORE)
        _, self.address = self.serves()
        self.client = self.enterContext(Client(self.address))

    @contextlib.contextmanager
    def running(self):
        words = [sys.executable, ground.SERVICE / "bin/acdctl", "rules", self.address, "--rules", self.rules]
        with subprocess.Popen(words, stderr=subprocess.PIPE, text=True, env={**os.environ, "PATH": "/usr/bin"}) as one:
            try:
                yield one
            finally:
                one.kill()

    def test_it_moves_and_says_so(self):
        self.rules.write_text('groups.100.rules = [{when = "long", seconds = 2, to = "110", name = "soon"}]\n')
        call = self.client.ask("arriveCall", caller="0301", called="100").result["call"]
        with self.running() as one:
            until(lambda: self.client.read("/queues/110")["calls"])
            self.assertEqual(one.stderr.readline(), "acdctl rules: follows the desk, by 1 rule of 1 group\n")
            self.assertEqual(one.stderr.readline(), f"acdctl rules: call {call} in 100, soon: to 110\n")
            one.terminate()
            self.assertEqual(one.wait(60), -15)
        done = said("trail", self.address, "--requester", "rules-soon")
        self.assertRegex(done.out, rf"\A\S+ \S+  rules-soon-1  deflectCall call {call}, device 100, to 110: done  \(#\d+, invoke {call}\)\n\Z")

    def test_it_waits_until_the_desk_is_there(self):
        self.rules.write_text('groups.100.rules = [{when = "long", seconds = 0, end = true}]\n')
        self.address = f"http://127.0.0.1:{ground.free_port()}"
        with self.running() as one:
            self.assertRegex(one.stderr.readline(), r"\Aacdctl rules: no answer \(.*\), retrying; nobody is moved meanwhile\n\Z")
            time.sleep(0.1)
            self.assertIsNone(one.poll())


if __name__ == "__main__":
    unittest.main()
