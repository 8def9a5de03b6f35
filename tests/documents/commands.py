"""Commands that a page names and that aren't there, and options that their `--help` doesn't know."""
from __future__ import annotations

import functools
import os
import re
import shlex
import subprocess
from collections.abc import Iterator
from pathlib import Path

from .page import Page

DESK = {"acd", "./acd", "release/acd"}
FOLDERS = {"tests", "proof", "packaging", "bench", "exchange", "service", "board", "client", "crates", "release", "docs"}
ENDS = {"|", ";", "&&", "||", "&", ">", "<", "2>", "\\;"}
BEFORE = {"sudo", "exec", "time", "--", "!"}     # a command may stand behind these
OPTION = re.compile(r"--[a-z][a-z-]*")


@functools.cache
def printed(words: tuple[str, ...]) -> str:
    """What a command prints with `--help`; nothing where it refuses."""
    ran = subprocess.run([*words, "--help"], stdin=subprocess.DEVNULL, stdout=subprocess.PIPE, stderr=subprocess.STDOUT, text=True, timeout=120, check=False)
    return ran.stdout if ran.returncode == 0 else ""


def words_of(text: str) -> list[str]:
    """The words of a line of the shell, as far as it is one; what follows # is a note."""
    try:
        return shlex.split(text.partition(" #")[0].replace("(", " ").replace(")", " "))
    except ValueError:
        return text.split()


def is_to_fill_in(word: str) -> bool:
    return word == ".." or bool(re.search(r"[A-Z]{2}|[*{}$…]|^[A-Z]$|\.\.", word))


class Commands:
    """The commands of a tree, by a program and by `acdctl`."""

    def __init__(self, top: Path, program: Path) -> None:
        self.top, self.program = top, program

    def faults(self, text: str) -> Iterator[str]:
        """What is wrong with a line of the shell."""
        words = words_of(text)
        for at, word in enumerate(words):
            rest = words[at + 1:]
            ending = next((number for number, each in enumerate(rest) if each in ENDS or each.endswith(";")), len(rest))
            rest = rest[:ending + 1] if ending < len(rest) and rest[ending].endswith(";") and len(rest[ending]) > 1 else rest[:ending]
            before = words[at - 1] if at else ";"
            if word in DESK and (before in ENDS | BEFORE or before.endswith(";") or "=" in before):
                yield from self.of_command(word, (str(self.program),), rest)
            elif word.rpartition("/")[2] == "acdctl" and "=" not in word:
                yield from self.of_command("acdctl", (str(self.top / "service/bin/acdctl"),), rest)
            else:
                yield from self.of_path(word, rest)

    @staticmethod
    def of_command(name: str, start: tuple[str, ...], rest: list[str]) -> Iterator[str]:
        if not rest or not re.fullmatch(r"[a-z]+(-[a-z]+)*", rest[0]):
            return
        known = printed((*start, rest[0]))
        if not known or not re.search(rf"(?m)^ +{rest[0]}\b", printed(start)):
            yield f"no command {name} {rest[0]}"
            return
        yield from (f"{name} {rest[0]} has no option {option}" for option in options_of(rest) if not re.search(rf"{option}(?![\w-])", known))

    def of_path(self, word: str, rest: list[str]) -> Iterator[str]:
        path = word.removeprefix("./").rstrip(".,;:")
        if path.partition("/")[0] not in FOLDERS or "/" not in path or is_to_fill_in(path) or not re.fullmatch(r"[\w./+-]+", path):
            return
        file = self.top / path
        if not file.exists() and not file.with_name(f"{file.name}.antt").exists() and "/out" not in path:
            yield f"no file {path}"
        elif file.is_file() and os.access(file, os.X_OK):
            known = file.read_text(errors="replace") + printed((str(file),)) if any(options_of(rest)) else ""
            yield from (f"{path} has no option {option}" for option in options_of(rest) if not re.search(rf"{option}(?![\w-])", known))


def options_of(words: list[str]) -> Iterator[str]:
    yield from (option for word in words for option in OPTION.findall(word.partition("=")[0]) if word.startswith("--"))


def bad_commands(page: Page, commands: Commands) -> Iterator[tuple[int, str]]:
    for number, text in page.spans():
        yield from ((number, fault) for fault in commands.faults(text))
    for block in page.blocks:
        if block.language in ("", "sh", "bash", "console", "indented", "in a list"):
            yield from ((block.line + at, fault) for at, line in enumerate(block.lines) for fault in commands.faults(line.removeprefix("$ ")))
