"""A page of Markdown: its headings, its blocks of code and its text."""
from __future__ import annotations

import re
from collections.abc import Iterator
from pathlib import Path
from typing import NamedTuple

INDENT = 4
ITEM = re.compile(r" *([-*]|\d+\.) ")
SPAN = re.compile(r"(`+)(.+?)\1", re.DOTALL)


class Block(NamedTuple):
    """A block of code: the number of its first line, the word after its fence or `indented`, its lines, and the mark that stands for it."""
    line: int
    language: str
    lines: tuple[str, ...]
    mark: str

    @property
    def is_run(self) -> bool:
        """Whether tests/trials/try-docs runs it, or writes it as a file that it runs. It looks into no list, and into no other fence."""
        if self.language == "python":
            return bool(re.match(r"# \w+\.py$", self.lines[0]))
        return self.language == "indented" and any(line.startswith("$ ") for line in self.lines)


class Heading(NamedTuple):
    line: int
    text: str


def anchor(text: str) -> str:
    """As GitHub makes it of a heading."""
    plain = re.sub(r"\[([^]]*)\]\([^)]*\)", r"\1", text).replace("`", "")
    return re.sub(r"[^\w\- ]", "", plain.strip().lower()).replace(" ", "-")


class Page:
    def __init__(self, file: Path) -> None:
        self.file = file
        self.headings: list[Heading] = []
        self.blocks: list[Block] = []
        self.prose: list[tuple[int, str]] = []
        self._mark, self._lasting = "", ""
        self._inner = 0     # where the text of the list's item begins that is read, 0 outside of a list
        self._read(file.read_text().split("\n"))

    def _read(self, lines: list[str]) -> None:
        at = 0
        while at < len(lines):
            line = lines[at]
            if fence := re.match(r" *```(\S*)", line):
                end = next(number for number in range(at + 1, len(lines)) if lines[number].lstrip().startswith("```"))
                self._add_block(at + 1, fence[1], lines[at + 1:end])
                at = end + 1
            elif self._is_indented(line) and (at == 0 or not lines[at - 1].strip()):
                end = self._end_of_indented(lines, at)
                self._add_block(at + 1, "in a list" if self._inner else "indented", [each[self._inner + INDENT:] for each in lines[at:end]])
                at = end
            else:
                self._add_line(at + 1, line)
                at += 1

    def _is_indented(self, line: str) -> bool:
        """Whether it is of a block of code, by its blanks: four, or four more than the text of its item."""
        return line.startswith(" " * (self._inner + INDENT)) and bool(line.strip())

    def _end_of_indented(self, lines: list[str], at: int) -> int:
        """The first line that isn't of the block; one that is blank is if an indented one follows."""
        end = at
        while at < len(lines) and (self._is_indented(lines[at]) or not lines[at].strip()):
            at += 1
            end = at if lines[at - 1].strip() else end
        return end

    def _add_block(self, line: int, language: str, lines: list[str]) -> None:
        self.blocks.append(Block(line, language, tuple(lines) or ("",), self._mark or self._lasting))
        self._mark = ""

    def _add_line(self, number: int, line: str) -> None:
        if heading := re.match(r"#+ +(.*)", line):
            self.headings.append(Heading(number, heading[1]))
            self._mark = self._lasting = ""
        elif mark := re.fullmatch(r"\s*<!-- (not run: \S.*|run by \S+) -->", line):
            self._mark = mark[1]
        elif mark := re.fullmatch(r"\s*<!-- (none run here: \S.*|runs are by \S+) -->", line):
            self._lasting = mark[1]
        elif line.strip():
            self._mark = ""
        if item := ITEM.match(line):
            self._inner = item.end()
        elif line.strip() and not line.startswith("  "):
            self._inner = 0
        self.prose.append((number, line))

    @property
    def anchors(self) -> set[str]:
        found: set[str] = set()
        for heading in self.headings:
            name, many = anchor(heading.text), 0
            while (each := f"{name}-{many}" if many else name) in found:
                many += 1
            found.add(each)
        return found | {each for _, line in self.prose for each in re.findall(r'<a (?:id|name)="([^"]+)"', line)}

    def spans(self) -> Iterator[tuple[int, str]]:
        """Each span of code in the text, with the number of its line."""
        text = "\n".join(line for _, line in self.prose)
        numbers = [number for number, _ in self.prose]
        for found in SPAN.finditer(text):
            if "\n\n" not in found[2]:
                yield numbers[text.count("\n", 0, found.start())], " ".join(found[2].split())

    def without_code(self) -> Iterator[tuple[int, str]]:
        """The lines of the text, with blanks in place of code."""
        text = SPAN.sub(lambda found: re.sub(r"[^\n]", " ", found[0]), "\n".join(line for _, line in self.prose))
        yield from zip((number for number, _ in self.prose), text.split("\n"))
