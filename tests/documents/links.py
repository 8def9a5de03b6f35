"""Links of a page that lead nowhere."""
from __future__ import annotations

import functools
import re
from collections.abc import Iterator
from pathlib import Path

from .page import Page

LINK = re.compile(r"\[[^]]*\]\(([^)\s]+)\)")
NAMED = re.compile(r"(?:[\w.-]+/)*[\w-]+\.md")


@functools.cache
def anchors_of(file: Path) -> frozenset[str]:
    if file.suffix == ".md":
        return frozenset(Page(file).anchors)
    return frozenset(re.findall(r'\bid="([^"]+)"', file.read_text()))


def fault_of(page: Page, target: str) -> str | None:
    """What is wrong with the target of a link."""
    if re.match(r"[a-z]+:", target):
        return None
    name, _, anchor = target.partition("#")
    file = (page.file.parent / name).resolve() if name else page.file
    if not file.exists():
        return f"no file {name}"
    if anchor and anchor not in anchors_of(file):
        return f"no heading #{anchor} in {file.name}"
    return None


def bad_links(page: Page, top: Path) -> Iterator[tuple[int, str]]:
    # a picture within a link is a link too
    for number, line in page.prose:
        for target in LINK.findall(re.sub(r"`[^`]*`", "", line)):
            if fault := fault_of(page, target):
                yield number, fault
    for number, text in page.spans():
        if NAMED.fullmatch(text) and not any((folder / text).exists() for folder in (page.file.parent, top, top / "docs")):
            yield number, f"no page {text}"
