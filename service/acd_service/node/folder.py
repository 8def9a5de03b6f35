"""A machine's folder: how far its desk was fed, which the file `at` says, and whether another machine's folder came in
its place."""
import os
from typing import NamedTuple


# How far a machine came: the revision of the last value that was answered whole, the number of entries until then, and
# a digest of their replies (of its bytes, for what is no value).
Reached = NamedTuple("Reached", [("place", int), ("count", int), ("digest", bytes)])
# The digest that machines compare, and after how many entries it was taken.
Checked = NamedTuple("Checked", [("count", int), ("digest", bytes)])


class State(NamedTuple):
    """What `at` says. `seen` is the revision up to which no entry came but those until the place."""
    reached: Reached
    checked: Checked
    seen: int


# what changes of a file where it is written or replaced: its inode, size and time
Look = tuple[int, int, int]
NOTHING = Reached(0, 0, b"0" * 64)
UNCHECKED = Checked(0, b"0" * 64)
# the bytes of the first line, which are all that versions before 1.15 read
FIRST = 200
BOTH = "at", "desk.db"


class Folder:
    def __init__(self, path: str) -> None:
        self.path, self.at = path, os.open(f"{path}/at", os.O_RDWR | os.O_CREAT, 0o644)
        self.read()

    def read(self) -> None:
        """Begins where `at` says; without it from the beginning of the log: what was executed is repeated."""
        self.state = State(NOTHING, UNCHECKED, 0)
        try:
            place, count, digest = os.pread(self.at, FIRST, 0).split()
            self.state = self.state._replace(reached=Reached(int(place), int(count), digest))
            seen, count, digest = os.pread(self.at, FIRST, FIRST).split()
            self.state = self.state._replace(checked=Checked(int(count), digest), seen=int(seen))
        except ValueError:                                 # what was read until then holds
            pass

    def write(self, state: State) -> None:
        """The place is the first line, and the rest the second: one write, so both are of one moment."""
        first = (b"%020d %020d %s" % state.reached).ljust(FIRST - 1)
        os.pwrite(self.at, b"%s\n%020d %020d %s\n" % (first, state.seen, *state.checked), 0)
        self.state = state

    def durable_state(self) -> State:
        """How far this machine came, once that is on its disk. The log may then forget all earlier entries."""
        state = self.state
        os.fsync(self.at)
        return state

    def look(self) -> dict[str, Look]:
        """Each file with what changes where it is written or replaced; nothing without a folder."""
        try:
            found = [(entry.name, entry.stat()) for entry in os.scandir(self.path)]
        except FileNotFoundError:
            return {}
        return {name: (about.st_ino, about.st_size, about.st_mtime_ns) for name, about in found}

    def is_replaced(self, first: dict[str, Look], before: dict[str, Look]) -> bool:
        """Whether both files are others than at first, and nothing has changed since before. Then it begins where `at`
        says now. A copy that is under way changes files, and a copy of `at` alone is none."""
        now = self.look()
        if now != before or any(now.get(name) in (None, first.get(name)) for name in BOTH):
            return False
        with open(f"{self.path}/at", "r+b") as at:
            os.dup2(at.fileno(), self.at)
        self.read()
        return True
