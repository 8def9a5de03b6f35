"""Callers whose calls a rule ended, in the records: apart from those who gave up, and from those whom somebody else took out of the queue."""
import csv
import io
import unittest

import service_ground as ground
from service_ground import PLAN, said

# four callers of group 100 at one moment: one gives up after 30 s; a rule ends the call of one after 40 s; a rule moves one after 50 s; and one is ended by the exchange, at the
# group, as a rule does it, after 70 s. A rule's try for the first one came too late
LINES = """\
0 {"requester":"plan","invoke":4,"service":"addGroup","device":"110","name":"Overflow","ring":20,"wrap":30}
900 {"requester":"pbx","invoke":1,"service":"arriveCall","caller":"0301","called":"100"}
900 {"requester":"pbx","invoke":2,"service":"arriveCall","caller":"0302","called":"100"}
900 {"requester":"pbx","invoke":3,"service":"arriveCall","caller":"0303","called":"100"}
900 {"requester":"pbx","invoke":4,"service":"arriveCall","caller":"0304","called":"100"}
930 {"requester":"pbx","invoke":5,"service":"clearConnection","call":1,"device":"0301"}
930 {"requester":"rules-100-closed-1","invoke":1,"service":"clearConnection","call":1,"device":"100"}
940 {"requester":"rules-100-closed-1","invoke":2,"service":"clearConnection","call":2,"device":"100"}
950 {"requester":"rules-100-long-1","invoke":3,"service":"deflectCall","call":3,"device":"100","to":"110"}
970 {"requester":"pbx-rules-1","invoke":4,"service":"clearConnection","call":4,"device":"100"}
"""
# one caller is answered after 5 s, passed on to group 110 after a talk of 10 s, and ended there by a rule after 30 s; a rule moves another one there after 60 s, and ends the call 50 s
# later
FROM_ELSEWHERE = """\
0 {"requester":"plan","invoke":4,"service":"addGroup","device":"110","name":"Overflow","ring":20,"wrap":30}
890 {"requester":"desk","invoke":1,"service":"setAgentState","agent":"7","requested":"loggedOn","device":"201","group":"100"}
890 {"requester":"desk","invoke":2,"service":"setAgentState","agent":"7","requested":"ready"}
900 {"requester":"pbx","invoke":1,"service":"arriveCall","caller":"0301","called":"100"}
905 {"requester":"desk","invoke":3,"service":"answerCall","call":1,"device":"201"}
910 {"requester":"pbx","invoke":2,"service":"arriveCall","caller":"0302","called":"100"}
915 {"requester":"desk","invoke":4,"service":"singleStepTransfer","call":1,"device":"201","to":"110"}
945 {"requester":"rules-110-closed-1","invoke":1,"service":"clearConnection","call":1,"device":"110"}
970 {"requester":"rules-100-long-1","invoke":2,"service":"deflectCall","call":2,"device":"100","to":"110"}
1020 {"requester":"rules-110-closed-1","invoke":2,"service":"clearConnection","call":2,"device":"110"}
"""


class Counted(ground.Case):
    def table(self, *words):
        done = said("calls", "--file", self.file, *words)
        self.assertEqual((done.status, done.faults), (0, ""), done)
        return list(csv.DictReader(io.StringIO(done.out)))

    def groups(self, *more):
        """The lines of groups, by some columns."""
        return [tuple(row[name] for name in ("group", "entered", "answered", "closed", *more)) for row in self.table("--groups")]

    def test_who_was_ended_by_a_rule(self):
        self.desk(PLAN + LINES)
        self.assertEqual([(row["number"], row["ended"]) for row in self.table()], [("1", "abandoned"), ("2", "closed"), ("3", "live"), ("4", "at 100 while it waited")])
        self.assertEqual([row["ended"] for row in self.table("--legs") if row["call"] == "2"], ["closed"])
        self.assertEqual(self.groups("abandoned", "moved", "abandoned_late", "service_level", "abandoned_by_stay", "service_level_by_stay"),
                         [("100", "4", "0", "1", "2", "1", "2", "0", "2", "0"), ("110", "1", "0", "0", "0", "0", "0", "", "0", "")])

    def test_who_came_from_elsewhere(self):
        """It counts in the group where the rule ended the call; an answer before it stays one."""
        self.desk(PLAN + FROM_ELSEWHERE)
        self.assertEqual([(row["ended"], row["waited"]) for row in self.table()], [("closed", "35"), ("closed", "110")])
        self.assertEqual(self.groups("abandoned", "moved", "service_level", "abandoned_by_stay"),
                         [("100", "2", "1", "0", "0", "1", "100", "0"), ("110", "2", "0", "2", "0", "0", "", "0")])


if __name__ == "__main__":
    unittest.main()
