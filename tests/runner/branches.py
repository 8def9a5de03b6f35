"""How many branches of each module that ships the unit tests take, in every process that they start."""
from __future__ import annotations

import json
import os
import subprocess
from collections.abc import Iterator
from pathlib import Path

from .jobs import PYTHON, TOP

SHIPS = ("service", "client", "exchange")
# what falls away, and what isn't code of this repository's hand
LEFT_OUT = ("*/leaving/*",)
SETTINGS = """[run]
branch = True
parallel = True
sigterm = True
data_file = {folder}/data
source = {sources}
omit = {omitted}
disable_warnings = no-data-collected,module-not-measured

[report]
exclude_lines =
    (?!)
"""


def variables(folder: Path) -> dict[str, str]:
    """By these a process and all that it starts count in this folder."""
    settings = folder / "settings"
    settings.write_text(SETTINGS.format(folder=folder, sources=",".join(str(TOP / part) for part in SHIPS), omitted=",".join(LEFT_OUT)))
    return {"COVERAGE_PROCESS_START": str(settings), "PYTHONPATH": str(TOP / "tests/runner/hook")}


def counted(folder: Path) -> dict[str, tuple[int, int]]:
    """Of each module the branches that were taken, and all."""
    for words in (["combine", "-q"], ["json", "-q", "-o", str(folder / "report")]):
        subprocess.run([PYTHON, "-m", "coverage", *words, f"--rcfile={folder / 'settings'}"], cwd=TOP, stdin=subprocess.DEVNULL, check=True)
    files = json.loads((folder / "report").read_text())["files"]
    return {os.path.relpath(TOP / name, TOP): (found["summary"]["covered_branches"], found["summary"]["num_branches"]) for name, found in files.items()}


def table(found: dict[str, tuple[int, int]]) -> Iterator[str]:
    """A line a module, the fewest first, and one for all."""
    def line(name: str, taken: int, branches: int) -> str:
        return f"{name:<52}{taken:7}{branches:7}{100 * taken / branches:7.0f} %"

    yield f"{'':<52}{'taken':>7}{'all':>7}"
    for name, (taken, branches) in sorted(found.items(), key=lambda item: item[1][0] / max(item[1][1], 1)):
        if branches:
            yield line(name, taken, branches)
    yield line("all", sum(taken for taken, _ in found.values()), sum(branches for _, branches in found.values()) or 1)
