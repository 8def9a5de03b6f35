#!/usr/bin/python3
"""Tests of tables that know what changed.   usage: tests/unit/gate/test_tables.py"""
import json
import random
import unittest

import standing  # noqa: F401: where the modules are
from acd_service.gate.tables import KEPT, Recent, Table, changes, goes_on, picture


class Reader:
    """Takes changes into what it has; whoever can't go on takes a picture."""

    def __init__(self):
        self.number, self.has, self.pictures = -1, {}, 0

    def look(self, tables, number):
        if goes_on(tables, self.number):
            for name, lines in json.loads("{" + changes(tables, self.number) + "}").items():
                self.has[name] |= lines
        else:
            self.pictures += 1
            self.has = json.loads("{" + picture(tables) + "}")
        self.number = number

    def lines(self):
        return {name: {key: line for key, line in lines.items() if line is not None} for name, lines in self.has.items()}


class TableTest(unittest.TestCase):
    def test_what_changed(self):
        table = Table(5, {"a": "1", "b": "2"})
        self.assertEqual((table.whole(), table.since(5), table.since(4)), ('{"a":1,"b":2}', "", '{"a":1,"b":2}'))
        self.assertEqual([table.put("a", "1", 6), table.put("c", "3", 6), table.drop("b", 7), table.drop("b", 8)], [False, True, True, False])
        self.assertEqual((table.since(5), table.since(6), table.since(7)), ('{"c":3,"b":null}', '{"b":null}', ""))
        self.assertEqual([table.renew({"a": "1", "c": "3"}, 9), table.renew({"a": "4"}, 10)], [False, True])
        self.assertEqual((table.whole(), table.since(9)), ('{"a":4}', '{"c":null,"a":4}'))

    def test_a_thousand_losses(self):
        """Readers that look now and then, of two tables in which lines come, change and go: each has what a picture has."""
        chance = random.Random(7)
        tables, readers, looks = {"calls": Table(0), "groups": Table(0)}, [Reader() for _ in range(20)], 0
        for number in range(1, 1200):
            for _ in range(chance.randrange(8)):
                table, key = tables[chance.choice(["calls", "groups"])], str(chance.randrange(40))
                if chance.random() < 0.4:
                    table.drop(key, number)
                else:
                    table.put(key, str(chance.randrange(5)), number)
            for reader in chance.sample(readers, chance.randrange(4)):
                reader.look(tables, number)
                looks += 1
                self.assertEqual(reader.lines(), json.loads("{" + picture(tables) + "}"))
        self.assertGreater(looks, 1000)
        self.assertEqual([reader.pictures for reader in readers], [1] * 20)

    def test_what_is_gone_is_kept_for_a_while(self):
        """Whoever is away for longer takes a picture."""
        table = Table(0)
        for number in range(1, KEPT + 3):
            table.put(str(number), "1", number)
            table.drop(str(number), number)
        self.assertEqual((goes_on({"x": table}, KEPT), goes_on({"x": table}, KEPT // 2 - 1), len(table.changed) <= KEPT), (True, False, True))

    def test_the_newest_alone(self):
        table = Recent(0, 3)
        for number in range(1, 6):
            table.put(str(number), f'"{number}"', number)
        self.assertEqual((table.whole(), table.since(3), goes_on({"x": table}, 2), goes_on({"x": table}, 1)), ('{"3":"3","4":"4","5":"5"}', '{"4":"4","5":"5"}', True, False))


if __name__ == "__main__":
    unittest.main()
