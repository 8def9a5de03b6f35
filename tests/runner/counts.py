"""What the output of a job comes to."""
import json
import re
import xml.etree.ElementTree as ElementTree
from pathlib import Path

from .jobs import Count

LAST_OF_CHECKS = re.compile(r"(\d+) tried, (\d+) wrong\b")     # of a trial of the pages, in JavaScript
LAST_OF_TRIAL = re.compile(r"(\d+) passed, (\d+) failed, \d+ s$")


def of_status(status: int, _output: str, _place: Path) -> Count:
    """A command that is one case."""
    return Count(0, (f"status {status}",)) if status else Count(1)


def of_pytest(status: int, _output: str, place: Path) -> Count:
    """By pytest's report. A file whose process came to no end counts as a test that failed, and so does one without a test."""
    if not place.exists():
        return Count(0, (f"its process ended with status {status}",))
    cases = list(ElementTree.parse(place).getroot().iter("testcase"))
    names = {case: f"{case.get('classname', '')}.{case.get('name', '')}" for case in cases}
    failed = {names[case] for case in cases if case.find("failure") is not None or case.find("error") is not None}
    skipped = {names[case] for case in cases if case.find("skipped") is not None} - failed
    if status and not failed:
        failed = {"it has no test" if not cases else f"its process ended with status {status}"}
    passed = {names[case] for case in cases} - failed - skipped
    return Count(len(passed), tuple(sorted(failed)), tuple(sorted(skipped)))


def of_unittest(status: int, _output: str, place: Path) -> Count:
    """By what `runner.plain` noted."""
    if status or not place.exists():
        return Count(0, (f"its process ended with status {status}",))
    noted = json.loads(place.read_text())
    return Count(noted["passed"], tuple(noted["failed"]), tuple(noted["skipped"]))


def of_trial(status: int, output: str, _place: Path) -> Count:
    """By the last line of a trial. One that ended without it is one case that failed."""
    lines = output.rstrip().splitlines()
    found = LAST_OF_TRIAL.search(lines[-1]) if lines else None
    if lines and (checks := LAST_OF_CHECKS.match(lines[-1])) and not found:
        wrong = int(checks[2])
        return Count(int(checks[1]) - wrong, ("checks",) * wrong or (f"status {status}",) * bool(status))
    if not found:
        return Count(0, (f"its process ended with status {status}",))
    failed = re.findall(r"^ *[\d.]+ s  failed  (\S+)$", output, re.MULTILINE)
    if len(failed) < int(found[2]) or status and not failed:
        failed.append(f"status {status}")
    return Count(int(found[1]), tuple(failed))
