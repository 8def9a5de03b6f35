"""Each case of each trial as a test of pytest, `/usr/bin/python3 -m pytest tests/trials -k 'copies and good'`, say. It runs by itself, as by its trial's `--case`,
and is skipped where the machine lacks what it needs."""
from __future__ import annotations

import os
import subprocess
from collections.abc import Iterator
from pathlib import Path
from typing import Any

import pytest
from runner import packages, parts
from runner.jobs import LEASH, TOP, Job

TRIALS = TOP / "tests/trials"
PROGRAM = Path(os.environ.get("ACD", TOP / "release/acd")).resolve()
ALL = {**parts.OF_THE_PROGRAM, **parts.OF_THE_SERVICE, **parts.BY_HAND}


def pytest_configure(config: pytest.Config) -> None:
    for mark, needed in parts.MARKS.items():
        config.addinivalue_line("markers", f"{mark.replace(' ', '_')}: a trial that needs {', '.join(needed)}")


def pytest_collect_file(file_path: Path, parent: pytest.Collector) -> Script | None:
    is_trial = file_path.parent == TRIALS and file_path.name.startswith("try-")
    return Script.from_parent(parent, path=file_path) if is_trial else None


class Script(pytest.File):
    """A trial, with the cases of its parts."""

    def collect(self) -> Iterator[Case]:
        for name, part in ALL.items():
            if part.script == self.path.name:
                for case in (case for place in part.places for case in parts.case_names(place)):
                    yield Case.from_parent(self, name=f"{name}: {case}", part=part, case=case)


class Failed(Exception):
    """What a case printed that failed."""


class Case(pytest.Item):
    def __init__(self, *, part: parts.Part, case: str, **more: Any) -> None:
        super().__init__(**more)
        self.case, self.job = case, self.job_of(part)
        self.add_marker(pytest.mark.timeout(self.job.longest))
        for mark in part.marks:
            self.add_marker(mark.replace(" ", "_"))

    def job_of(self, part: parts.Part) -> Job:
        job, = parts.trials(PROGRAM, {self.name: part})
        return job

    def runtest(self) -> None:
        if lacked := packages.missing(self.job.packages):
            pytest.skip(f"for want of {', '.join(lacked)}")
        done = subprocess.run([*LEASH, *self.job.words, "--case", self.case], cwd=TOP, env={**os.environ, **self.job.variables}, stdin=subprocess.DEVNULL,
                              stdout=subprocess.PIPE, stderr=subprocess.STDOUT, text=True, errors="replace", check=False)
        if done.returncode:
            raise Failed(done.stdout)

    def repr_failure(self, excinfo: pytest.ExceptionInfo[BaseException], *more: Any) -> Any:
        return str(excinfo.value) if isinstance(excinfo.value, Failed) else super().repr_failure(excinfo, *more)

    def reportinfo(self) -> tuple[Path, int, str]:
        return self.path, 0, self.name
