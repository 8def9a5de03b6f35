"""Sentences of a page that have too many words."""
from __future__ import annotations

import re
from collections.abc import Iterator

from .page import ITEM, Page

MOST = 25


def paragraphs(page: Page) -> Iterator[tuple[int, str]]:
    """Each paragraph, item of a list or cell of a table, with the number of its first line."""
    start, lines = 0, list[str]()
    before = 0
    for number, line in [*page.prose, (0, "")]:
        apart = not line.strip() or ITEM.match(line) or line.startswith(("#", "|", "<!--", "!")) or number != before + 1
        if apart and lines:
            yield start, " ".join(lines)
            lines = []
        before = number
        if line.startswith("|"):
            yield from ((number, cell.strip()) for cell in line[1:-1].split("|"))
        elif line.strip() and not line.startswith(("#", "<!--", "!")):
            start = start if lines else number
            item = ITEM.match(line)
            lines.append(line[item.end() if item else 0:].strip())


def long_sentences(page: Page) -> Iterator[tuple[int, str]]:
    for number, text in paragraphs(page):
        plain = re.sub(r"`[^`]*`", "CODE", re.sub(r"\]\([^)]*\)", "]", text))
        for sentence in re.split(r"(?<=[.!?])[)*_]*\s+(?=[\"'(*\[]*[A-Z])|; |: ", plain):
            if len(words := sentence.split()) > MOST:
                yield number, f"{len(words)} words: {sentence[:90]}"
