"""Runs all tests, and ends with their count alone on the last line: `N passed, M failed`.

usage: ./test [--only STAGE,..] [--trials] [--install] [--may-lack FILE] [WORD ..]

Stages, in their order: `shape` (what has to be believed, sizes of clauses and pages, cuts of wrong bodies), `proof` (rt ci: an hour or two), `program` (trials of the process that this
built, some minutes), `python` (lint, types, unit tests and trials of what stands around it, some minutes), `release` (whether release/ is of these sources; the
subjects of the log). All of them run unless --only chooses; `--only coverage` runs the unit tests and prints how many branches of each module they take, `--trials`
what takes hours or needs a browser, a booted system, etcd, a telephone exchange or root, one trial after the other, as far as this machine has that. A WORD
chooses jobs by their names: `./test --only python unit/gate` or `./test --trials ready`. Tests take the program that `rt ci`
built, without the stage `proof` release/acd, or the one that the variable ACD names.

Debian packages that are missing are named, with the line that gets them; --install gets them, as root. What can't run without them is left out and
counted, and the status is 75. With --may-lack it is 0 if FILE names each of these packages. The status is 1 where anything failed."""
from __future__ import annotations

import argparse
import os
import sys
import tempfile
from collections.abc import Callable, Iterable
from pathlib import Path
from typing import NoReturn

from . import branches, counts, packages, parts
from .jobs import AT_ONCE, STOP, TOP, Count, Job, Jobs, Outcome

STAGES = ("shape", "proof", "program", "python", "release")
LEFT_OUT = 75       # the status where a machine lacks something
OLDER = 3           # of proof/release: release/ is of older sources
BUILT = TOP / "crates/acd/out/acd"
DAY = 24 * 3600


def say(text: str = "") -> None:
    print(text, flush=True)


class Total:
    """What all jobs came to."""

    def __init__(self) -> None:
        self.outcomes: list[Outcome] = []
        self.lacked: set[str] = set()
        self.left_out = 0

    @property
    def passed(self) -> int:
        return sum(outcome.count.passed for outcome in self.outcomes)

    @property
    def failed(self) -> int:
        return sum(len(outcome.count.failed) for outcome in self.outcomes)

    def add(self, outcome: Outcome) -> None:
        self.outcomes.append(outcome)
        count, name = outcome.count, outcome.job.name
        if count.failed and outcome.output:
            say(outcome.output.rstrip())
        for became, names in (("failed", count.failed), ("skipped", count.skipped)):
            for each in names:
                say(f"{name}: {became}: {each}")
        say(f"{outcome.seconds:7.1f} s  {name}: {count.passed} passed, {len(count.failed)} failed")

    def leave_out(self, job: Job, lacked: Iterable[str]) -> None:
        cases = job.cases()
        self.left_out += cases
        self.lacked |= set(lacked)
        say(f"{job.name}: left out ({cases} {'case' if cases == 1 else 'cases'}), for want of {', '.join(lacked)}")

    def table(self) -> None:
        """The seconds of each job, by the clock and of a processor."""
        say(f"\n{'':<44}{'cases':>7}{'seconds':>9}{'processor':>11}")
        for outcome in sorted(self.outcomes, key=lambda outcome: -outcome.processor):
            count = outcome.count
            say(f"{outcome.job.name:<44}{count.passed + len(count.failed):7}{outcome.seconds:9.1f}{outcome.processor:11.1f}")
        say(f"{'all':<44}{self.passed + self.failed:7}{'':9}{sum(outcome.processor for outcome in self.outcomes):11.1f}\n")


def one(name: str, *words: str, good: tuple[int, ...] = (0,), needed: tuple[str, ...] = ()) -> Job:
    """A command that prints as it goes on, and is one case."""
    def count(status: int, output: str, place: Path) -> Count:
        return counts.of_status(0 if status in good else status, output, place)

    return Job(name, words, count, needed, longest=DAY, is_shown=True)


def run(jobs: Iterable[Job], total: Total, at_once: int = AT_ONCE) -> bool:
    """Runs those that can run; whether all passed."""
    able, before = [], total.failed
    for job in jobs:
        if lacked := packages.missing(job.packages):
            total.leave_out(job, lacked)
        else:
            able.append(job)
    with Jobs(at_once) as running:
        for outcome in running.run_all(able):
            total.add(outcome)
    return total.failed == before


def program(stages: list[str]) -> Path:
    default = BUILT if "proof" in stages else TOP / "release/acd"
    return Path(os.environ.get("ACD", default)).resolve()


def chosen(words: list[str], jobs: list[Job]) -> list[Job]:
    """The jobs that have one of these words in their name, or all where there is none."""
    return [job for job in jobs if not words or any(word in job.name for word in words)]


def run_shape(options: argparse.Namespace, total: Total) -> bool:
    jobs = one("count-shape", "proof/count-shape"), one("believed", "proof/believed", "--check"), one("names", "proof/believed", "--try"), one("cuts", "proof/cut-edits", "--check")
    return all(run([job], total) for job in jobs)


def run_proof(options: argparse.Namespace, total: Total) -> bool:
    return run([one("rt ci", "proof/gate-cost", "rt", "ci")], total)


def tests(stages: list[str], acd: Path, words: list[str]) -> list[Job]:
    """The jobs of `program` and `python` that these words choose: they run side by side."""
    of_program = parts.trials(acd, parts.OF_THE_PROGRAM) if "program" in stages else []
    of_python = [*parts.lint(), *parts.types(), *parts.trials(acd, parts.OF_THE_SERVICE)] if "python" in stages else []
    return chosen(words, of_program + of_python) + (parts.unit(acd, words) if "python" in stages else [])


def run_tests(options: argparse.Namespace, total: Total) -> bool:
    """Whatever fails, the stages that follow can run."""
    run(tests(options.only, program(options.only), options.words), total)
    return True


def of_release() -> list[Job]:
    return [one("release", "proof/release", "--check", good=(0, OLDER), needed=("binutils",)), one("history", "proof/check-history")]


def run_release(options: argparse.Namespace, total: Total) -> bool:
    return all([run([job], total) for job in of_release()])


def run_coverage(options: argparse.Namespace, total: Total) -> bool:
    with tempfile.TemporaryDirectory(prefix="acd-coverage-") as folder:
        is_good = run(parts.unit(program(options.only), options.words, branches.variables(Path(folder))), total)
        say("\n" + "\n".join(branches.table(branches.counted(Path(folder)))))
    return is_good


def run_by_hand(options: argparse.Namespace, total: Total) -> bool:
    """One after the other: some measure, and some take ports of their own."""
    return run(chosen(options.words, parts.trials(program(options.only), parts.BY_HAND)), total, 1)


# what runs for which stages; where it says that it failed, nothing follows, since that would be of another program
RUN: dict[tuple[str, ...], Callable[[argparse.Namespace, Total], bool]] = {
    ("shape",): run_shape, ("proof",): run_proof, ("program", "python"): run_tests, ("release",): run_release, ("coverage",): run_coverage, ("trials",): run_by_hand}


def needed(options: argparse.Namespace) -> list[str]:
    """The packages of the jobs that are to run."""
    jobs = tests(options.only, Path(), options.words) + (parts.unit(Path(), options.words) if "coverage" in options.only else [])
    jobs += chosen(options.words, parts.trials(Path(), parts.BY_HAND)) if "trials" in options.only else []
    helpers = set(parts.HELPERS if jobs else ())
    jobs += of_release() if "release" in options.only else []
    found = helpers | {package for job in jobs for package in job.packages}
    return sorted(found | ({"python3-coverage"} if "coverage" in options.only else set()))


def get_packages(options: argparse.Namespace) -> None:
    lacked = [package for package in packages.missing(needed(options)) if package in packages.KNOWN_BY]
    if lacked and options.install:
        packages.install(lacked, {package for those in parts.UNIT_PACKAGES.values() for package in those})
        lacked = packages.missing(lacked)
    if lacked:
        say(f"missing Debian packages: {' '.join(lacked)}. As root: {packages.line_for(lacked)}")


def end(options: argparse.Namespace, total: Total) -> NoReturn:
    total.table()
    if total.left_out:
        say(f"{total.left_out} cases were left out, for want of {', '.join(sorted(total.lacked))}")
    say(f"{total.passed} passed, {total.failed} failed")
    if total.failed or not total.passed:
        sys.exit(1)
    sys.exit(LEFT_OUT if total.lacked - may_lack(options.may_lack) else 0)


def may_lack(file: Path | None) -> set[str]:
    """The packages of a list: one a line, and what follows # is a note."""
    lines = file.read_text().splitlines() if file else []
    return {line.partition("#")[0].strip() for line in lines} - {""}


def command_line() -> argparse.Namespace:
    text = __doc__ or ""
    parser = argparse.ArgumentParser("./test", usage=text.partition("usage: ./test ")[2].partition("\n")[0], description=text,
                                     formatter_class=argparse.RawDescriptionHelpFormatter)
    parser.add_argument("--only", type=lambda text: text.split(","), default=list(STAGES))
    parser.add_argument("--trials", dest="only", action="store_const", const=["trials"])
    parser.add_argument("--install", action="store_true")
    parser.add_argument("--may-lack", type=Path)
    parser.add_argument("words", nargs="*")
    options = parser.parse_args()
    if unknown := set(options.only) - {*STAGES, "coverage", "trials"}:
        parser.error(f"no stage {', '.join(sorted(unknown))}")
    return options


def main() -> NoReturn:
    options, total = command_line(), Total()
    os.environ.pop("PYTHONPATH", None)      # ./test has set it, and what ships has to find its modules without it
    STOP.listen()
    get_packages(options)
    for stages, work in RUN.items():
        if set(stages) & set(options.only) and not work(options, total):
            break
    end(options, total)


if __name__ == "__main__":
    main()
