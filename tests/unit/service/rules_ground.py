"""What the tests of rules share: a desk whose moments the test gives, and rules as a file says them."""
import sys
import tempfile
from pathlib import Path
from unittest import mock

import service_ground as ground

sys.path += [str(ground.TOP / part) for part in ("tests/trials", "tests/trials/rules", "client")]
from acd_service.rules import following, reading  # noqa: E402
from played import Played  # noqa: E402
from trial import Plan  # noqa: E402

# 4 January 2027, a Monday, 12:00 UTC
NOON = 1799064000
PLAN = Plan(groups=["100", "110", "120"], stations=["201", "202", "299"], agents=["7", "8"])
HOURS = 'zone = "UTC"\nhours = {mon-fri = ["08:00-18:00"]}\n'


def rules_of(text):
    with tempfile.TemporaryDirectory() as folder:
        file = Path(folder) / "rules.toml"
        file.write_text(text)
        found = reading.read(file, "rules")
    assert not found.faults, found.faults
    return found.rules


def of_group(group, *rules):
    listed = "".join(f"    {{{rule}}},\n" for rule in rules)
    return f"[groups.{group}]\nrules = [\n{listed}]\n"


class Case(ground.Case):
    def setUp(self):
        super().setUp()
        self.lines = []
        self.begun = []
        self.enterContext(mock.patch.object(following, "report", lambda text, *_: (self.begun if text.startswith("follows") else self.lines).append(text)))
        self.enterContext(mock.patch("acd_service.tick.command.report", lambda text: self.lines.append(str(text))))
        self.desk = self.enterContext(Played(ground.ACD))
        self.desk.plan(PLAN)
        self.desk.moment = NOON

    def following(self, *rules, text=None):
        """An instance over the desk, by the desk's moments."""
        return following.Following(self.desk, rules_of(text or HOURS + of_group("100", *rules)), "rules", lambda: self.desk.moment)

    def turns(self, one, moment=None, most=20):
        """Looks until there is nothing more to ask; what it sent meanwhile, each as requester, service, call and status."""
        before = len(self.desk.sent)
        self.desk.moment = self.desk.moment if moment is None else moment
        while one.turn() == 0:
            most -= 1
            self.assertGreater(most, 0)
        return [(request["requester"], request["service"], request["call"], status) for _, request, status in self.desk.sent[before:]]

    def waiting(self, group):
        return [one["call"] for one in self.desk.attempt("GET", f"/queues/{group}").body["calls"]]
