"""Blocks of code that nobody runs and that don't say why."""
from __future__ import annotations

from collections.abc import Iterator
from pathlib import Path

from .page import Page


def bad_blocks(page: Page, top: Path) -> Iterator[tuple[int, str]]:
    for block in page.blocks:
        how, _, file = block.mark.rpartition(" by ")
        if how in ("run", "runs are"):
            if not (top / file).is_file():
                yield block.line, f"said to be run by {file}, which isn't there"
        elif not block.mark and not block.is_run:
            yield block.line, "a block of code that nobody runs, without a mark"
