"""A file that trials begin with: a plan, a call that was answered, a monitor, and a second call that waits."""
import shutil
from pathlib import Path

from .counting import Trial
from .desks import Lines
from .files import log_of
from .requests import Plan, Requests, compact, line, lines

PLANNED = 5


def asked():
    """What is asked over the plan."""
    request = Requests(plan=PLANNED)
    return [(10, request.arrive()), (15, request.log_on("7", "201", "100")), (18, request.state("7")), (25, request.at("answerCall", 1, "201")), (30, request("monitorStart", device="201")),
            (40, request.arrive("0309999"))]


class OverCalls(Trial):
    """Over that file, which stays as it is, and its plan."""

    @classmethod
    def setUpClass(cls):
        super().setUpClass()
        cls.file, cls.plan = cls.folder / "desk.db", cls.folder / "plan.csv"
        cls.plan.write_text(Plan().text())
        cls.planned = "".join(f'200 {compact({"invoke": number, "requester": "plan", "result": {}})}\n' for number in range(1, PLANNED + 1))
        for turn in ["import", "import again"]:
            cls.gives(turn, ["import", "--file", cls.file, "--plan", cls.plan], 0, cls.planned)
        answers = cls.gives("lines", ["lines", "--file", cls.file], given=lines(asked()))
        cls.expect("six lines granted", answers.count("200 "), 6)
        log = log_of(cls.file)
        cls.see("a log without a frame", not log.exists() or log.stat().st_size < 32 + 24, log.exists() and log.stat().st_size)

    @classmethod
    def copy(cls, name):
        return Path(shutil.copy(cls.file, cls.folder / name))

    @classmethod
    def stopped(cls, name, ticks):
        """A copy over which a desk was killed: what it answered lies in the log."""
        copy, request = cls.copy(name), Requests()
        with Lines(cls.program, copy) as desk:
            for _ in range(ticks):
                desk.say(line(60, request.tick()))
        return copy
