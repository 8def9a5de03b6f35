"""Tables of lines by their keys, of which each knows when it changed last. Unproved.

A number is drawn for each turn in which something changes. Whoever has a table as it was at a number, and takes what
changed since, has it as it is."""
from collections.abc import Iterable, Mapping

# so many lines that are gone are kept beside as many as are there
KEPT = 1000


class Table:
    """Each line is a JSON text. What is gone is kept for a while: nobody can go on from a number before `floor`."""

    def __init__(self, number: int, lines: Mapping[str, str] | None = None) -> None:
        self.floor = number
        self.lines: dict[str, str] = dict(lines or {})
        # by keys the number at which each changed last or was removed, the latest last
        self.changed: dict[str, int] = dict.fromkeys(self.lines, number)

    def put(self, key: str, line: str, number: int) -> bool:
        """Whether that is something new."""
        if self.lines.get(key) == line:
            return False
        self.lines[key] = line
        self.mark(key, number)
        return True

    def drop(self, key: str, number: int) -> bool:
        """Whether it was there."""
        if self.lines.pop(key, None) is None:
            return False
        self.mark(key, number)
        return True

    def renew(self, lines: Mapping[str, str], number: int) -> bool:
        """Has these lines and no others; whether that is something new."""
        gone = [self.drop(key, number) for key in self.lines.keys() - lines.keys()]
        new = [self.put(key, line, number) for key, line in lines.items()]
        return any(gone) or any(new)

    def mark(self, key: str, number: int) -> None:
        self.changed.pop(key, None)
        self.changed[key] = number
        if len(self.changed) > 2 * len(self.lines) + KEPT:
            for old in [each for each in self.changed if each not in self.lines][:KEPT // 2]:
                self.floor = max(self.floor, self.changed.pop(old))

    def whole(self) -> str:
        """All lines, as a JSON object."""
        return joined(self.lines.items())

    def since(self, number: int) -> str:
        """What changed after a number, as a JSON object, in which null is for what is gone; empty if nothing did."""
        found: list[tuple[str, str]] = []
        for key in reversed(self.changed):
            if self.changed[key] <= number:
                break
            found.append((key, self.lines.get(key, "null")))
        return joined(reversed(found)) if found else ""


def joined(lines: Iterable[tuple[str, str]]) -> str:
    return "{" + ",".join(f'"{key}":{line}' for key, line in lines) + "}"


class Recent(Table):
    """The newest lines alone. Who goes on from a number has to leave out the older ones too."""

    def __init__(self, number: int, most: int) -> None:
        super().__init__(number)
        self.most = most

    def mark(self, key: str, number: int) -> None:
        self.changed[key] = number
        while len(self.lines) > self.most:
            oldest = next(iter(self.lines))
            del self.lines[oldest]
            self.floor = self.changed.pop(oldest)


Tables = Mapping[str, Table]


def picture(tables: Tables) -> str:
    """All of these tables as members of an object, without its braces."""
    return ",".join(f'"{name}":{table.whole()}' for name, table in tables.items())


def changes(tables: Tables, number: int) -> str:
    """What changed in these tables after a number, in the same form; empty if nothing did."""
    found = ((name, table.since(number)) for name, table in tables.items())
    return ",".join(f'"{name}":{text}' for name, text in found if text)


def goes_on(tables: Tables, number: int) -> bool:
    """Whether what changed after this number is known as a whole."""
    return all(number >= table.floor for table in tables.values())
