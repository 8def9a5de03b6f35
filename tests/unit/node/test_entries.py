"""The forms of a value of the log: of one entry, and of several."""
import sys
import unittest
from pathlib import Path

sys.path.insert(0, str(Path(__file__).resolve().parents[3] / "service"))

from acd_service.node.entries import entries_of, entry_of, fitting, request_of, value_of  # noqa: E402

TOKEN = b"0123456789abcdefABCDEF0123456789"
NO_ENTRIES = [b"", b" ", b"nospace", TOKEN, TOKEN + b" ", TOKEN + b" 5", TOKEN + b" 5 ", TOKEN + b"  5 x", TOKEN + b" x", TOKEN + b" -5 x", TOKEN + b" 5x x",
              TOKEN + b" 12345678901 x", TOKEN[1:] + b" 5 x", TOKEN + b"0 5 x", b"g" + TOKEN[1:] + b" 5 x", b" " + TOKEN + b" 5 x", TOKEN + b"\t5 x", TOKEN + b" 5\tx",
              TOKEN + b" 5 x\r", TOKEN + b" 5 GET /snapshot", TOKEN + b" 5 GET", TOKEN + b" 5 GETx", TOKEN + b" 5 HEAD /", TOKEN + b" 5 " + b"x" * 4097,
              TOKEN + " ٥ x".encode(), TOKEN + "\u00a05 x".encode(), b"\xff" * 39, b"*"]
LINES = [b"0 x", b"1700000000 {}", b"4294967296 {}", b"9999999999 {}", b"0000000000 x", b"5 " + b"x" * 4096, b"5  GET /snapshot", b"5 get", b"5 \xff\x00", b"5 \tGET", b"5  ", b"5 *"]


class Entries(unittest.TestCase):
    def test_what_is_one(self):
        for line in LINES:
            self.assertEqual(entries_of(TOKEN + b" " + line), [(TOKEN, line)], line)

    def test_several_in_their_order(self):
        entries = [TOKEN + b" " + line for line in LINES]
        for many in range(1, len(LINES) + 1):
            self.assertEqual(entries_of(b"*\n" + b"\n".join(entries[:many])), [(TOKEN, line) for line in LINES[:many]])

    def test_what_is_none(self):
        good = b"%s 5 x" % TOKEN
        self.assertEqual(entries_of(good), [(TOKEN, b"5 x")])
        for value in [*NO_ENTRIES, b"\n" + good, good + b"\n", good + b"\ny", TOKEN + b" 5 \nx"]:
            self.assertEqual(entries_of(value), [], value)

    def test_several_of_which_one_is_none(self):
        """Then none of them is fed."""
        good = b"%s 5 x" % TOKEN
        for value in [b"*", b"*\n", b"*" + good, b"* \n" + good, b"*\r\n" + good, b"\n*\n" + good, b"*\n" + good + b"\n", b"*\n\n" + good, b"*\n" + good + b"\n*\n" + good, b"**\n" + good]:
            self.assertEqual(entries_of(value), [], value)
        for entry in NO_ENTRIES:
            for entries in ([entry], [entry, good], [good, entry], [good, entry, good]):
                self.assertEqual(entries_of(b"*\n" + b"\n".join(entries)), [], entry)

    def test_how_many_and_how_long(self):
        good = b"%s 5 x" % TOKEN
        for many, is_one in [(99, True), (100, True), (101, False), (10000, False)]:
            self.assertEqual(len(entries_of(b"*" + many * (b"\n" + good))), many if is_one else 0)
        longest = b"\n" + TOKEN + b" 1700000000 " + b"x" * 4096   # 4,141 bytes, so that 63 of them and a byte are 260,884
        for last, many in [(1215, 64), (1216, 0)]:
            value = b"*" + 63 * longest + b"\n" + TOKEN + b" 1700000000 " + b"y" * last
            self.assertEqual((len(value), len(entries_of(value))), (260929 + last, many))

    def test_requests(self):
        self.assertEqual(request_of(b'{\r\n"a":\n1}\r'), b'{\t\t"a":\t1}\t')
        self.assertEqual(request_of(b"x" * 4096), b"x" * 4096)
        self.assertEqual(request_of(b"\nGET /"), b"\tGET /")
        for body in [b"", b"GET /snapshot", b"GET", b"HEAD", b"HEADS", b"x" * 4097]:
            self.assertIsNone(request_of(body), body)

    def test_a_request_in_its_entry(self):
        self.assertEqual(entries_of(entry_of(b"a" * 32, 17, request_of(b"{\n}"))), [(b"a" * 32, b"17 {\t}")])

    def test_what_is_put_together(self):
        entries = [entry_of(b"%032x" % number, number, b"x" * (number % 4096 + 1)) for number in range(300)]
        self.assertEqual(entries_of(value_of(entries[:100])), [(entry[:32], entry[33:]) for entry in entries[:100]])

    def test_how_many_fit(self):
        short, longest = b"%s 5 x" % TOKEN, TOKEN + b" 1700000000 " + b"x" * 4096
        for entries, many in [([], 0), ([short], 1), ([short] * 100, 100), ([short] * 101, 100), ([longest] * 100, 63), ([short] * 99 + [longest] * 9, 100), ([longest] * 63 + [short] * 40, 97)]:
            self.assertEqual(fitting(entries), many)
            self.assertEqual(len(entries_of(value_of(entries[:many]))), many)


if __name__ == "__main__":
    unittest.main()
