"""A stream packed by gzip, of which each part can be unpacked as soon as it is there. Unproved.

Parts know nothing of each other. So what many are sent, as the names of all agents, is packed once for all of them, and
a stream that is open takes no room for what it sent. What is short is sent as it is."""
import re
import struct
import zlib
from functools import lru_cache

from acd_service.gate.exchanges import Pipe

# of a stream its begin, without a name or a time, and the last part, which is empty
BEGIN, LAST = b"\x1f\x8b\x08\0\0\0\0\0\0\xff", b"\x03\0"
# bytes: what is shorter than this is sent as it is, and of a part that is packed by more memory; and the level of zlib
SHORT, LONG, LEVEL = 300, 3000, 4


def takes_gzip(field: str) -> bool:
    """Whether a field Accept-Encoding says that gzip may come."""
    kinds = [one.partition(";") for one in field.lower().split(",")]
    return any(name.strip() == "gzip" and not re.fullmatch(r"\s*q\s*=\s*0(\.0*)?\s*", weight)
               for name, _, weight in kinds)


def packed(part: bytes) -> bytes:
    # with little memory where little is to be packed: to make it ready takes longer than to pack
    window, memory = (zlib.MAX_WBITS, 8) if len(part) >= LONG else (12, 5)
    made = zlib.compressobj(LEVEL, zlib.DEFLATED, -window, memory)
    return made.compress(part) + made.flush(zlib.Z_FULL_FLUSH)


# those of some views, and the names; and what is shorter, of a turn
kept, kept_shortly = lru_cache(8)(packed), lru_cache(64)(packed)


def block(part: bytes) -> bytes:
    if len(part) < SHORT:
        return struct.pack("<BHH", 0, len(part), len(part) ^ 0xffff) + part
    return kept_shortly(part) if len(part) < LONG else kept(part)


class Packed:
    """Packs what is written for another pipe."""

    def __init__(self, pipe: Pipe) -> None:
        self.pipe, self.sum, self.size = pipe, 0, 0
        pipe.write(BEGIN)

    def write(self, *parts: bytes) -> None:
        for part in parts:
            self.sum, self.size = zlib.crc32(part, self.sum), self.size + len(part)
        self.pipe.write(*map(block, parts))

    def is_gone(self) -> bool:
        return self.pipe.is_gone()

    def end(self) -> None:
        self.pipe.write(LAST + struct.pack("<II", self.sum, self.size & 0xffffffff))
