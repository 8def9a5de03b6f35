"""The form of a value of the log, of an entry in it, and of the request in that. Anything else is no value, on all
machines alike.

A value is the byte MARK and, each after an LF, 1 to MOST entries, in LONGEST_VALUE bytes. Or it is one entry alone, as
versions before 1.17 put it: no entry begins with MARK."""
import re
from typing import NamedTuple

LONGEST = 4096
MARK, MOST, LONGEST_VALUE = b"*", 100, 256 * 1024
# GET and HEAD begin lines that read, and the answer to a read doesn't depend on the log alone
REQUEST = rb"(?!GET|HEAD)[^\r\n]{1,%d}" % LONGEST
ENTRY = re.compile(rb"([0-9A-Fa-f]{32}) ([0-9]{1,10} %s)" % REQUEST)
ONE_REQUEST = re.compile(REQUEST)
# Outside of strings each is white space of JSON; within one the desk refuses a tab as it refuses these. So one line
# means the same as a body of several lines.
LINE_ENDS = bytes.maketrans(b"\r\n", b"\t\t")


class Entry(NamedTuple):
    """The token by which a machine finds who asked, and the line for the desk."""
    token: bytes
    line: bytes


def request_of(body: bytes) -> bytes | None:
    """A body as the request of an entry, or None if no entry may have it."""
    line = body.translate(LINE_ENDS)
    return line if ONE_REQUEST.fullmatch(line) else None


def entry_of(token: bytes, moment: int, request: bytes) -> bytes:
    return b"%s %d %s" % (token, moment, request)


def value_of(entries: list[bytes]) -> bytes:
    return b"\n".join([MARK, *entries])


def fitting(entries: list[bytes]) -> int:
    """How many of the first entries one value may have."""
    many, size = 0, len(MARK)
    for entry in entries[:MOST]:
        size += 1 + len(entry)
        if size > LONGEST_VALUE:
            break
        many += 1
    return many


def entries_of(value: bytes) -> list[Entry]:
    """The entries of a value, in order; empty if it is no value."""
    lines = value.split(b"\n", MOST + 1)
    if lines[0] == MARK:
        lines = lines[1:] if len(value) <= LONGEST_VALUE and len(lines) <= MOST + 1 else []
    found = [Entry(*match.groups()) for match in map(ENTRY.fullmatch, lines) if match]
    return found if len(found) == len(lines) else []
