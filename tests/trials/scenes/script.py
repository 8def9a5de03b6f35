"""Reads scripts of scenes. In a script's text a line says what it is by its first word:

| line | what it is |
|---|---|
| `part NAME` | the lines of a transcript follow (`playing`), up to the next line of this table |
| `- MOMENT CODE NAME JSON` | in a transcript: a request that is refused with this code and name, and its answer |
| `+ MOMENT RESULT JSON` | in a transcript: a request that gets this result, and its answer |
| `* FIRST LAST BEHIND MOMENT RESULT JSON` | for each number `$1` from the first to the last one, such a request, and `! *` after it. `$2` is the number and so many more, for the invoke; `$3` is its group, of twelve; `$4` and `$5` are its station and its caller; `$6` and `$7` are of four digits: its group of 64, and the number from 1000 on |
| `scene NAME: PART PART` | these parts, one after the other, are played over a new desk in memory and over one in a file |
| `scene NAME within R C G S A M: PART` | the same over a file, with these limits on requests, calls, groups, stations, agents and monitors |
| `table NAME: PART PART` | the lines of a transcript follow, with the places `$1`, `$2` and so on in them and in the name |
| `row VALUE VALUE` | with these values in its places the table's transcript, after the parts, is a scene of that name |
| `full NAME: PART PART` | all requests come as one input, over a new file |
| `files NAME: PART PART` | each request comes to a desk of its own, over one file |
| `altered NAME: PART PART` | a file executes it, and is then changed by each of its lines `~ TOLD SQL` |
| `wrong NAME: PART` | isn't what happens, and the player says where |
"""
import itertools
import json
from typing import NamedTuple

from switch import GREATEST, compact

PLAYED = ("scene", "full", "files", "altered", "wrong")


class Part(NamedTuple):
    name: str
    lines: list


class Scene(NamedTuple):
    """`word` says how its parts are played; `limits` has those that aren't the greatest."""
    script: str
    word: str
    name: str
    limits: dict
    parts: list

    def marked(self, sign):
        """The lines of this sign, without it."""
        return [line.removeprefix(f"{sign} ") for part in self.parts for line in part.lines if line.startswith(f"{sign} ")]


def key_of(request):
    request = json.loads(request)
    return {"invoke": request["invoke"], "requester": request["requester"]}


def refused(said):
    moment, code, name, request = said.split(" ", 3)
    return [f"> {moment} {request}", "< 409 " + compact({"error": {"code": int(code), "name": name}, **key_of(request)})]


def granted(said):
    moment, result, request = said.split(" ", 2)
    return [f"> {moment} {request}", "< 200 " + compact({"result": json.loads(result), **key_of(request)})]


def filled(text, values):
    for place, value in enumerate(values, 1):
        text = text.replace(f"${place}", str(value))
    return text


def granted_to_each(said):
    first, last, behind, said = said.split(" ", 3)
    for number in range(int(first), int(last) + 1):
        values = number, number + int(behind), number % 12 + 100, number + 200, number + 301000, number % 64 + 1000, number + 1000
        yield from [*granted(filled(said, values)), "! *"]


EXPANDED = {"-": refused, "+": granted, "*": granted_to_each}


def transcript(part):
    """The part with what its short lines stand for."""
    signs = ((line.partition(" "), line) for line in part.lines)
    return Part(part.name, [each for (sign, _, said), line in signs for each in (EXPANDED[sign](said) if sign in EXPANDED else [line])])


class Scripts:
    """A script may use the parts of those that were read before it."""

    def __init__(self):
        self.parts, self.scenes, self.begun, self.script = {}, [], None, None

    def read(self, script, text):
        self.begun, self.script = None, script
        for line in text.splitlines():
            self.read_line(line)

    def read_line(self, line):
        word, _, said = line.partition(" ")
        if word in ("part", "table"):
            self.begun = self.parts[said] = Part(said, [])
        elif word == "row":
            values = said.split(" ")
            self.add("scene", filled(self.begun.name, values), Part(self.begun.name, [filled(each, values) for each in self.begun.lines]))
        elif word in PLAYED:
            self.add(word, said)
        elif self.begun:
            self.begun.lines.append(line)

    def add(self, word, said, *more):
        scene, names = said.split(": ")
        name, _, numbers = scene.partition(" within ")
        limits = dict(zip(GREATEST, map(int, numbers.split()))) if numbers else {}
        parts = [self.parts[each] for each in names.split(" ")]
        self.scenes.append(Scene(self.script, word, name, limits, list(map(transcript, [*parts, *more]))))

    def unplayed(self):
        """The parts that no scene plays."""
        played = {part.name for part in itertools.chain.from_iterable(scene.parts for scene in self.scenes)}
        return sorted(set(self.parts) - played)
