#!/usr/bin/python3
"""Tests of the spelling of names for the desk.   usage: tests/unit/service/test_spelling.py"""
import sys
import unittest
from pathlib import Path

sys.path.insert(0, str(Path(__file__).resolve().parents[3] / "service"))
from acd_service.spelling import is_shown, shown, shown_names, spelled  # noqa: E402


class SpellingTest(unittest.TestCase):
    def test_names(self):
        for name, wanted in (("Ana Adler", "Ana Adler"), ("Jürgen Müller", "Juergen Mueller"), ("Jürgen Müller", "Juergen Mueller"), ("ÄÖÜ äöü ß ẞ", "AeOeUe aeoeue ss Ss"),
                             ("Zoë Núñez-Šimić", "Zoe Nunez-Simic"), ("Łukasz Ærø Œuvre", "Lukasz Aeroe Oeuvre"), ("Đorđe Þór Guðrún", "Dorde Thor Gudrun"), ("Иван 7", "???? 7"), ("王伟", "??"),
                             ("İstanbul ılık", "Istanbul ilik"), ("O’Neil – Büro", "O'Neil - Buero"), ("ﬁle № ½", "file No 12"), ("x̣q̊", "xq"), ("", ""), ("🙂", "?"), ("~|{", "~|{"),
                             ("ü" * 25, "ue" * 20), ("a" * 39 + " b", "a" * 39), ("a\tb", "a?b")):
            self.assertEqual(spelled(name), wanted, name)

    def test_what_pages_show(self):
        self.assertEqual([is_shown(name) for name in ("Jürgen", "a" * 80, "a" * 81, "", " a", "a ", "a\nb", "a​b", "Иван")], [True, True, False, False, False, False, False, False, True])
        self.assertEqual([shown("Juergen", name) for name in ("Jürgen", "Jurgen", "Juergen", None, "")], ["Jürgen", "Juergen", "Juergen", "Juergen", "Juergen"])
        self.assertEqual(shown_names({"7": "Juergen", "8": "Ben", "9": "Zoe"}, {"7": "Jürgen", "8": "Bén Other", "9": "Zoe", "10": "Ä"}), {"7": "Jürgen"})


if __name__ == "__main__":
    unittest.main()
