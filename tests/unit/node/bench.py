"""The ground for tests of a machine's parts: a store, members of an etcd of the tests, a log over them, and a desk."""
import io
import sys
import tempfile
import time
import unittest
import warnings
from pathlib import Path

HERE = Path(__file__).resolve().parent
SERVICE = HERE.parents[2] / "service"
sys.path[:0] = [str(SERVICE), str(SERVICE.parent / "client"), str(HERE)]

from acd_service.node.journal import Journal  # noqa: E402
from acd_service.node.log import Log  # noqa: E402
from etcd import Member, Store  # noqa: E402

LINE = b"desk/line"
# seconds for what comes at once, unless the machine is busy
PATIENCE = 120


def token(number):
    return b"%032x" % number


class Bench(unittest.TestCase):
    def setUp(self):
        warnings.simplefilter("ignore", ResourceWarning)   # pipes of desks that were killed
        self.said, self.now = io.StringIO(), 1000.0
        self.journal = Journal(lambda: self.now, self.said)
        self.store, self.members = Store(), []
        self.scratch = tempfile.TemporaryDirectory()
        self.folder = Path(self.scratch.name)
        self.addCleanup(self.scratch.cleanup)

    def member(self, **faults):
        found = Member(self.store)
        self.addCleanup(found.close)
        for fault, value in faults.items():
            setattr(found, fault, value)
        self.members.append(found)
        return found

    def log(self, **times):
        times = {"patience": 5, "silence": 0.3, **times}
        found = Log([member.end for member in self.members], LINE, None, self.journal, **times)
        self.addCleanup(lambda: [connection.close() for connection in found.idle])
        return found

    def entries(self, many, first=1):
        """So many entries in the log."""
        for number in range(first, first + many):
            self.store.put(LINE, b"%s 5 line %d" % (token(number), number))

    def until(self, so, seconds=PATIENCE):
        end, pause = time.monotonic() + seconds, 0.01
        while not so():
            self.assertLess(time.monotonic(), end, self.said.getvalue())
            time.sleep(pause)
            # a machine that is busy has what it looks at come later
            pause = min(1.3 * pause, 0.2)
