"""G.711: what its recommendation has for a tone, its decision values, and what Python's audioop says where there is one."""
from __future__ import annotations

import bisect
import math
import struct
import unittest
import warnings
import wave
from pathlib import Path
from tempfile import TemporaryDirectory

from bridge import g711
from bridge.music import sounds

try:
    with warnings.catch_warnings():
        warnings.simplefilter("ignore")
        import audioop
except ImportError:
    audioop = None  # type: ignore[assignment]


def frames(samples: list[int]) -> bytes:
    return struct.pack(f"<{len(samples)}h", *samples)


class Laws(unittest.TestCase):
    def test_the_tone_of_the_recommendation(self) -> None:
        """1 kHz at 0 dBm0 (its tables 5 and 6); the greatest value of a law is at 3.14 and at 3.17 dBm0."""
        for law, greatest, level, wanted in ((g711.alaw, 4096 * 8, 3.14, "342121 34b4a1a1b4"), (g711.ulaw, 8159 * 4, 3.17, "1e0b0b1e 9e8b8b9e")):
            peak = greatest / 10 ** (level / 20)
            tone = [round(-peak * math.sin(math.pi / 8 + math.pi / 4 * place)) for place in range(8)]
            self.assertEqual(g711.encode(law, frames(tone)).hex(), wanted.replace(" ", ""))

    def test_decision_values(self) -> None:
        """Of its tables 1a and 2a: eight segments of sixteen steps, each step twice as wide as in the segment before; of A-law the first two segments are of one width."""
        alaw = [2 * step for step in range(16)] + [(32 + 2 * step) << segment for segment in range(7) for step in range(16)]
        ulaw = [max(0, 2 * step - 1) for step in range(16)] + [((32 + 2 * step) << segment) - 33 for segment in range(1, 8) for step in range(16)]
        for law, values, bits, sign in ((g711.alaw, alaw, 3, 0xd5), (g711.ulaw, ulaw, 2, 0xff)):
            scaled = [value << bits for value in values]
            found = [law(sample) for sample in range(32768)]
            self.assertEqual(found, [(bisect.bisect_right(scaled, sample) - 1) ^ sign for sample in range(32768)])

    def test_both_ends(self) -> None:
        self.assertEqual(g711.encode(g711.ulaw, frames([0, 32767, -32768])).hex(), "ff8000")
        self.assertEqual(g711.encode(g711.alaw, frames([0, 32767, -32768])).hex(), "d5aa2a")

    @unittest.skipIf(audioop is None, "Python 3.13 has no audioop")
    def test_all_samples_as_audioop(self) -> None:
        every = frames(list(range(-32768, 32768)))
        self.assertEqual((g711.encode(g711.ulaw, every), g711.encode(g711.alaw, every)), (audioop.lin2ulaw(every, 2), audioop.lin2alaw(every, 2)))

    def test_a_file(self) -> None:
        with TemporaryDirectory() as folder:
            path = str(Path(folder) / "music.wav")
            with wave.open(path, "wb") as written:
                written.setparams((1, 2, 8000, 0, "NONE", ""))
                written.writeframes(frames([0, 32767, -32768]))
            self.assertEqual({kind: sound.hex() for kind, sound in sounds(path).items()}, {0: "ff8000", 8: "d5aa2a"})


if __name__ == "__main__":
    unittest.main()
