"""JavaScript, of the pages and of their trials, can be read on a screen: none of its lines is over 140 characters."""
import unittest
from pathlib import Path

TOP = Path(__file__).resolve().parents[3]
PLACES = {"board": ("*.js", "*.ts"), "tests": ("*.mjs", "try-board", "show-board")}
MOST = 140


class Lines(unittest.TestCase):
    def test_modules(self) -> None:
        for place, endings in PLACES.items():
            modules = [file for ending in endings for file in sorted((TOP / place).rglob(ending))]
            self.assertGreater(len(modules), 20)
            found = [f"{file.relative_to(TOP)}:{number}" for file in modules
                     for number, line in enumerate(file.read_text().splitlines(), 1) if len(line) > MOST]
            self.assertEqual(found, [])


if __name__ == "__main__":
    unittest.main()
