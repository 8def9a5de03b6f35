"""Whether the log of a desk's file is whole, ends early or is damaged, judged by its frames alone: it opens neither the
log nor the file as a database.

It reads the log's form as SQLite describes it (fileformat2.html, section 4), and is tested, not proved. A log has a
head of 32 bytes, and frames of 24 bytes and a page. A command reads it up to the first bad frame: one without the
head's salt, or whose checksum, which continues from frame to frame, doesn't fit. A power cut may spoil the last commit,
whose answers nobody has got. So a log is damaged if, after its first bad frame, a frame with the head's salt ends a
commit, and after that one another frame has the head's salt: the frames between were on the disk before the later one
was written."""
import os
import struct
import sys
from array import array
from collections.abc import Iterator
from dataclasses import dataclass
from pathlib import Path
from typing import BinaryIO

HEAD, FRAME = 32, 24
# by the last bit of the magic number the checksum reads words with the lowest byte first, or with the highest
ORDERS = {0x377F0682: "little", 0x377F0683: "big"}
VERSION, SIZES = 3007000, [1 << power for power in range(9, 17)]

Sums = tuple[int, int]


@dataclass(frozen=True)
class Sound:
    """A command reads all of it, or it holds nothing."""


@dataclass(frozen=True)
class Torn:
    """It ends in a commit that isn't whole, as after a power cut: no answered request is missing. The frames count from
    1, offsets from 0."""
    frame: int
    offset: int


@dataclass(frozen=True)
class Damaged:
    """Answered requests are missing: those of this frame and of all later ones."""
    frame: int
    offset: int


@dataclass(frozen=True)
class Unreadable:
    """Its head can't be read, so nothing says what follows it."""
    why: str


State = Sound | Torn | Damaged | Unreadable


def two_words(data: bytes, offset: int) -> Sums:
    first, second = struct.unpack_from(">2I", data, offset)
    return first, second


def summed(order: str, sums: Sums, data: bytes) -> Sums:
    """The checksum, continued over these bytes."""
    words = array("I", data)
    if order != sys.byteorder:
        words.byteswap()
    first, second = sums
    pairs = iter(words)
    for word, next_word in zip(pairs, pairs):
        first = first + word + second & 0xFFFFFFFF
        second = second + next_word + first & 0xFFFFFFFF
    return first, second


def commits(frame: bytes) -> bool:
    """Whether a frame ends a commit: it says then how many pages the file has, and else 0."""
    return frame[4:8] != bytes(4)


class Reader:
    """The frames after a head that can be read."""
    page: int

    def __init__(self, file: BinaryIO, head: bytes) -> None:
        magic, _, self.page = struct.unpack_from(">3I", head)
        self.order, self.salt, self.begin = ORDERS[magic], head[16:24], two_words(head, 24)
        self.file, self.count = file, (os.fstat(file.fileno()).st_size - HEAD) // (FRAME + self.page)

    def offset(self, frame: int) -> int:
        return HEAD + (frame - 1) * (FRAME + self.page)

    def sums_after(self, sums: Sums, data: bytes) -> Sums | None:
        """The checksum after a frame, which continues that of the frame before; None if the frame is bad, or was cut
        meanwhile."""
        if len(data) < FRAME + self.page or data[8:16] != self.salt or data[:4] == bytes(4):
            return None
        sums = summed(self.order, summed(self.order, sums, data[:8]), data[FRAME:])
        return sums if sums == two_words(data, 16) else None

    def good(self) -> tuple[int, int]:
        """How many frames from the first on are good, and how many of these make whole commits."""
        self.file.seek(HEAD)
        sums, committed = self.begin, 0
        for frame in range(1, self.count + 1):
            data = self.file.read(FRAME + self.page)
            after = self.sums_after(sums, data)
            if after is None:
                return frame - 1, committed
            sums = after
            committed = frame if commits(data) else committed
        return self.count, committed

    def salted(self, begin: int) -> Iterator[bool]:
        """Of each frame from this one on that has the head's salt: whether it ends a commit."""
        for frame in range(begin, self.count + 1):
            self.file.seek(self.offset(frame))
            front = self.file.read(16)
            if front[8:] == self.salt:
                yield commits(front)

    def look(self) -> Sound | Torn | Damaged:
        good, committed = self.good()
        later = self.salted(good + 2)
        # any() reads up to the first frame that ends a commit, and leaves the later ones
        if any(later) and next(later, None) is not None:
            return Damaged(good + 1, self.offset(good + 1))
        if next(self.salted(committed + 1), None) is not None:
            return Torn(committed + 1, self.offset(committed + 1))
        return Sound()


def fault_of(head: bytes) -> str | None:
    """Why a head can't be read, if so."""
    magic, version, page = struct.unpack_from(">3I", head)
    if magic not in ORDERS or summed(ORDERS[magic], (0, 0), head[:24]) != two_words(head, 24):
        return "its head is damaged"
    if version != VERSION:
        return f"its head names version {version} of the form"
    return None if page in SIZES else f"its head names pages of {page} bytes"


def look(path: Path) -> State:
    """The state of the log at this path: Sound, Torn, Damaged or Unreadable. A log that isn't there holds nothing.
    Raises OSError if the file can't be read."""
    try:
        file = open(path, "rb")
    except FileNotFoundError:
        return Sound()
    with file:
        head = file.read(HEAD)
        # a log that is being emptied begins with 0 until that is done
        if os.fstat(file.fileno()).st_size < HEAD + FRAME or not head[0]:
            return Sound()
        why = fault_of(head)
        if not why:
            return Reader(file, head).look()
        return Unreadable(why) if any(any(part) for part in iter(lambda: file.read(65536), b"")) else Sound()
