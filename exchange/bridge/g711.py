"""The two laws of ITU-T G.711 by tables: samples of 16 bits to bytes. Python 3.13 has no audioop any more."""
import sys
from array import array
from collections.abc import Callable
from functools import cache


def ulaw(sample: int) -> int:
    """Of 14 bits, each segment twice as wide as the one before; all bits are inverted, the sign too."""
    sample >>= 2
    size, mask = min(abs(sample), 8158) + 33, 0x7f if sample < 0 else 0xff
    segment = max(size.bit_length() - 6, 0)
    return (segment << 4 | size >> segment + 1 & 15) ^ mask


def alaw(sample: int) -> int:
    """Of 13 bits, the first two segments of one width; every other bit is inverted."""
    sample >>= 3
    size, mask = (~sample, 0x55) if sample < 0 else (sample, 0xd5)
    segment = max(size.bit_length() - 5, 0)
    return (segment << 4 | size >> max(segment, 1) & 15) ^ mask


@cache
def table(law: Callable[[int], int]) -> bytes:
    """The byte of each sample, by its 16 bits without a sign."""
    return bytes(law(bits - (bits >> 15 << 16)) for bits in range(1 << 16))


def encode(law: Callable[[int], int], frames: bytes) -> bytes:
    """Samples as a WAV file has them, the lower byte first."""
    samples = array("H", frames)
    if sys.byteorder == "big":
        samples.byteswap()
    return bytes(map(table(law).__getitem__, samples))
