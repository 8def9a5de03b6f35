"""The exchange, stopped as by kill before or behind the commit of one of its steps: stopped.py STEP-before|STEP-after OPTIONS.."""
from __future__ import annotations

import os
import signal
import sys
from pathlib import Path
from typing import Any

TOP = Path(__file__).resolve().parents[3]
sys.path.insert(0, str(TOP / "exchange"))

from bridge import loop  # noqa: E402
from bridge.store import Store  # noqa: E402

AT = sys.argv.pop(1)


class Stopping(Store):
    """Counts its commits, each of which is a step."""
    steps = 0

    def commit(self) -> list[Any]:
        self.steps += 1
        self.stop("before")
        rows = super().commit()
        self.stop("after")
        return rows

    def stop(self, when: str) -> None:
        if AT == f"{self.steps}-{when}":
            os.kill(os.getpid(), signal.SIGKILL)


setattr(loop, "Store", Stopping)
loop.main()
