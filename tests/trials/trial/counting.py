"""Cases of unittest whose checks are counted: one that goes otherwise is printed, and the next one is tried. The last line of a run is the count."""
import argparse
import importlib.util
import itertools
import re
import shutil
import signal
import sys
import tempfile
import time
import traceback
import unittest
from pathlib import Path

from .desks import ran
from .leash import hold
from .spaces import is_alone

TOP = Path(__file__).resolve().parents[3]
LONGEST = 900   # so many characters of a value are printed


def traced(test, fault):
    """What is printed of a case that broke off: where, but for the frames of unittest."""
    frames = fault[2]
    while frames and "__unittest" in frames.tb_frame.f_globals:
        frames = frames.tb_next
    return f"{test} broke off: {''.join(traceback.format_exception(fault[0], fault[1], frames))}"


class Result(unittest.TestResult):
    """What breaks off goes one way: an exception, a failed assertion, or one within a `subTest`. An exit is passed on."""

    def addError(self, test, fault):
        if isinstance(fault[1], SystemExit):
            raise fault[1]
        self.broke_off(test, fault)

    addFailure = addError

    def addSubTest(self, test, subtest, fault):
        if fault:
            self.addError(subtest, fault)


class Count(Result):
    """How many checks there were, and how many went otherwise, of which `most` are printed. Where a fault is planted the first of these ends its case. A case passes if it came to its
    end, and none of its checks went otherwise; each is told as it ends. One that a signal ended before anything went otherwise is told as not run, and counts as neither."""

    def __init__(self, most=None):
        super().__init__()
        self.tried, self.wrong, self.most, self.is_planted, self.begun = 0, 0, most, False, time.monotonic()
        self.passed, self.failed, self.told = 0, 0, 0   # cases; and what went wrong in those that were told, or was told apart
        self.is_through = False     # the case

    def startTest(self, test):
        super().startTest(test)
        self.tell_apart()
        self.is_through = False

    def addSuccess(self, test):
        super().addSuccess(test)
        self.is_through = True

    def stopTest(self, test):
        super().stopTest(test)
        name = ".".join(test.id().rsplit(".", 2)[-2:])
        self.tell("failed" if self.wrong > self.told else "passed" if self.is_through else "not run", name)

    def tell(self, became, name):
        self.failed += became == "failed"
        self.passed += became == "passed"
        self.told = self.wrong
        print(f"{self.seconds:6.1f} s  {became}  {name}", flush=True)

    def tell_apart(self):
        """What went wrong before or after a case, while its class was set up or cleared, fails by itself."""
        if self.wrong > self.told:
            self.tell("failed", "outside_of_cases")

    def __str__(self):
        return f"{self.tried} tried, {self.wrong} wrong"

    @property
    def seconds(self):
        return time.monotonic() - self.begun

    def check(self, is_good, told):
        """`told` says what is otherwise, and is asked only where something is."""
        self.tried += 1
        if not is_good:
            if self.is_planted:
                raise AssertionError(told())
            self.wrong += 1
            if self.most is None or self.wrong <= self.most:
                print(f"WRONG {told()}", flush=True)

    def broke_off(self, test, fault):
        """That is wrong, since what comes after it in the case isn't tried."""
        self.check(False, lambda: traced(test, fault))


class Planted(Result):
    """The first thing that goes otherwise where a fault is planted. A case that breaks off by one of `errors` has found it too."""

    def __init__(self, errors):
        super().__init__()
        self.found, self.errors_that_find = None, (AssertionError, *errors)

    def broke_off(self, test, fault):
        self.stop()
        if isinstance(fault[1], self.errors_that_find):
            self.found = str(fault[1]) or type(fault[1]).__name__
        else:
            print(traced(test, fault), flush=True)


class Trial(unittest.TestCase):
    """Its methods whose names begin with `try_` are tried, in the order in which they stand. `main` sets `count`, `options` and `program`; each class has a folder of its own. Checks
    are methods of the class, so that `setUpClass` can check too."""

    count = options = program = folder = None

    @classmethod
    def setUpClass(cls):
        cls.folder = Path(cls.enterClassContext(tempfile.TemporaryDirectory()))

    @classmethod
    def expect(cls, what, found, wanted=True):
        cls.count.check(found == wanted, lambda: f"{what}: {repr(found)[:LONGEST]} and not {repr(wanted)[:LONGEST]}")

    @classmethod
    def see(cls, what, is_good, told=""):
        """A check that compares nothing; `told` is what there was."""
        cls.count.check(is_good, lambda: f"{what}: {str(told)[:LONGEST]}")

    @classmethod
    def expect_lines(cls, what, found, wanted):
        """The same lines: one check, which prints the first line that differs."""
        if found != wanted:
            place = next((place for place, (one, other) in enumerate(zip(found, wanted)) if one != other), min(len(found), len(wanted)))
            found, wanted = (f"{len(it)} lines, line {place + 1}: {it[place] if place < len(it) else 'none'}" for it in (found, wanted))
        cls.expect(what, found, wanted)

    @classmethod
    def expect_each(cls, what, found, wanted):
        """As many items, and each the same: one check more than there are items."""
        cls.expect(f"how many {what}", len(found), len(wanted))
        for place, (one, other) in enumerate(zip(found, wanted)):
            cls.expect(f"{what} {place}", one, other)

    @classmethod
    def acd(cls, *words, **how):
        return ran(cls.program, *words, **how)

    @classmethod
    def gives(cls, what, words, status=0, output=None, faults="", **how):
        """Runs the program: its status, what it prints (unless that is None), and what it says on standard error; returns what it prints."""
        done = cls.acd(*words, **how)
        cls.expect(what or f"acd {' '.join(map(str, words))}", done, (status, done.output if output is None else output, faults))
        return done.output

    @classmethod
    def tell(cls, text):
        """A line of what was done, with the time."""
        print(f"{cls.count.seconds:6.1f} s  {text}", flush=True)

    @classmethod
    def find(cls, what, *cases, errors=()):
        """Tries these cases over a fault that is planted, which one of them has to find. A case is a class, or one of its methods: `Days("try_days")`."""
        found = Planted(errors)
        cls.count.is_planted = True
        try:
            suite(cases).run(found)
        finally:
            cls.count.is_planted = False
        cls.expect(f"{what}: found", bool(found.found))
        print(f"{what}: {str(found.found)[:300]}", flush=True)


def each_of(cases):
    """The cases in their order, and the methods of each in the order in which they stand, those of the classes below first."""
    for case in cases:
        if isinstance(case, unittest.TestCase):
            yield case
        else:
            yield from map(case, {name: None for each in reversed(case.__mro__) for name in vars(each) if name.startswith("try_")})


def suite(cases, name=None):
    """All cases, or those of a name: that of the method, with `try_` or without, or that of the class and the method."""
    def is_named(case):
        method = case.id().rpartition(".")[2]
        return name in (None, method, method.removeprefix("try_"), f"{type(case).__name__}.{method}")

    return unittest.TestSuite(filter(is_named, each_of(cases)))


def planted(text, old, new):
    """The text with a fault. What the fault changes has to stand there once."""
    if text.count(old) != 1:
        raise ValueError(f"{old!r} stands there {text.count(old)} times")
    return text.replace(old, new)


def missing(needed):
    """Of names of programs those that aren't here; of packages by name those whose program, module or file isn't."""
    def is_there(thing):
        return Path(thing).exists() if thing.startswith("/") else shutil.which(thing) or importlib.util.find_spec(thing)

    return [name for name in needed if not (is_there(needed[name]) if isinstance(needed, dict) else shutil.which(name))]


def command(document, parts=(), program="program"):
    """The command line of a trial by its head: what follows `usage:` there, and the program, which is release/acd where none is named, by its place or by an option. Where there
    are parts `--only` chooses of them; where the head has `--wrong` faults are planted. A script adds its options."""
    usage = re.search(r"^usage: (.*?)(?:  +\(|$)", document, re.MULTILINE)[1]
    parser = argparse.ArgumentParser(usage=usage, description=document, formatter_class=argparse.RawDescriptionHelpFormatter)
    parser.add_argument(program, **({} if program.startswith("-") else {"nargs": "?"}), type=lambda text: Path(text).resolve(), default=TOP / "release/acd")
    parser.add_argument("--case", metavar="NAME", help="one case alone: try_success, success or Statuses.try_success")
    if "--wrong" in usage:
        parser.add_argument("--wrong", action="store_true")
    if parts:
        parser.add_argument("--only", type=lambda text: text.split(","), default=list(parts), help=f"of {','.join(parts)}")
    return parser


def main(cases, options, says=str, most=None, faults=None):
    """Tries the cases, prints what `says` makes of the count, and ends: with status 1 where anything went otherwise, or nothing was tried. Cases that have names, each a list, are
    parts, of which `options.only` says which. With --wrong the case that plants `faults` follows them. The last line ends with the number of cases, and the seconds. With the trial
    ends whatever it started."""
    if not is_alone():
        hold()
    signal.signal(signal.SIGTERM, lambda *_: sys.exit(143))     # so that what was made is removed too
    count = Trial.count = Count(most)
    Trial.options, Trial.program = options, options.program
    parts = {part: cases[part] for part in options.only} if isinstance(cases, dict) else {None: cases}
    parts |= {"wrong": [faults]} if faults and options.wrong else {}
    try:
        for part, chosen in parts.items():
            tried, wrong = count.tried, count.wrong
            suite(chosen, options.case).run(count)
            count.tell_apart()
            if part:
                print(f"{part}: {count.tried - tried} tried, {count.wrong - wrong} wrong", flush=True)
    finally:
        for case in itertools.chain(*parts.values()):
            case.doClassCleanups()
    print(f"{says(count)}; {count.passed} passed, {count.failed} failed, {count.seconds:.0f} s", flush=True)
    sys.exit(1 if count.wrong or not count.tried else 0)
