"""Places of a trial change: texts that take the place of others in a copy of the repository, each checked, printed and counted."""
import pathlib
import subprocess
import sys

KINDS = ["code", "definitions", "examples", "proofs", "tests", "pages", "tools"]


def kind_of(file):
    """What a file is, by its path."""
    part = pathlib.PurePath(file).parts
    if part[0] == "crates":
        if part[1] in ("acd_test", "acd"):
            return "tests"
        if part[1] == "acd_model" and ("Examples" in part or "examples" in part or part[-1] == "examples.rt"):
            return "examples"
        return {"src": "code", "specs": "definitions", "proofs": "proofs"}[part[2]]
    return {"tests": "tests", "docs": "pages", "client": "pages", "board": "pages"}.get(part[0], "tools")


def crate_of(file):
    part = pathlib.PurePath(file).parts
    return part[1] if part[0] == "crates" else f"{part[0]}/"


class Places:
    """Changes a copy; a place is one text in one file, or one file that is new."""

    def __init__(self, top):
        self.top, self.made, self.faults = pathlib.Path(top), [], []
        if not (self.top / "crates.txt").is_file() or self.top.resolve() == pathlib.Path(__file__).resolve().parents[2]:
            sys.exit(f"{top} is no copy of the repository")

    def put(self, file, *changes):
        """Each change is an old text, a new one, and how often the old one stands there if not once."""
        path = self.top / file
        text = path.read_text() if path.is_file() else self.faults.append(f"{file}: no such file") or ""
        for old, new, *times in changes:
            times, found = times[0] if times else 1, text.count(old)
            if found != times:
                self.faults.append(f"{file}: {found} times, not {times}: {old!r}")
            for line in [text[:place].count("\n") + 1 for place in starts(text, old)]:
                self.made.append((file, line, old))
            text = text.replace(old, new)
        if path.is_file():
            path.write_text(text)

    def after(self, file, *changes):
        """Each change is a text, and what is put behind it."""
        self.put(file, *[(old, old + new, *times) for old, new, *times in changes])

    def before(self, file, *changes):
        self.put(file, *[(old, new + old, *times) for old, new, *times in changes])

    def new(self, file, text):
        path = self.top / file
        if path.exists():
            self.faults.append(f"{file}: is there already")
        path.parent.mkdir(parents=True, exist_ok=True)
        path.write_text(text)
        self.made.append((file, 1, "(a new file)"))

    def like(self, file, model, *words):
        """A new file that is another one with other words."""
        text = (self.top / model).read_text()
        for old, new in words:
            if old not in text:
                self.faults.append(f"{model}: no {old!r}")
            text = text.replace(old, new)
        self.new(file, text)

    def by_tool(self, file, *command):
        """A file that a tool makes anew, which is one place."""
        path, before = self.top / file, (self.top / file).read_text()
        path.write_text(subprocess.run([sys.executable, "-B", *command], cwd=self.top, capture_output=True, text=True).stdout or before)
        if path.read_text() == before:
            self.faults.append(f"{file}: {' '.join(command)} changes nothing")
        self.made.append((file, 1, f"(by {' '.join(command)})"))

    def done(self):
        """Prints the places and their numbers; the status says whether each text stood as often as it had to."""
        for file, line, old in sorted(self.made):
            print(f"{crate_of(file):22} {kind_of(file):12} {file}:{line}  {' '.join(old.split())[:70]}")
        print()
        for name, of in [("crate", crate_of), ("kind", kind_of)]:
            for group in sorted({of(file) for file, *_ in self.made}, key=lambda g: KINDS.index(g) if g in KINDS else -1):
                places = [file for file, *_ in self.made if of(file) == group]
                print(f"{name} {group:22} {len(places):4} places in {len(set(places)):3} files")
        files = {file for file, *_ in self.made}
        crates = {crate_of(file) for file in files if file.startswith("crates/")}
        print(f"{len(self.made)} places in {len(files)} files, of these "
              f"{sum(file.startswith('crates/') for file, *_ in self.made)} in {sum(file.startswith('crates/') for file in files)} files of {len(crates)} crates")
        for fault in self.faults:
            print(f"places: {fault}", file=sys.stderr)
        sys.exit(1 if self.faults else 0)


def starts(text, old):
    place = text.find(old)
    while place >= 0:
        yield place
        place = text.find(old, place + len(old))


def copy_of_command_line(usage):
    if len(sys.argv) != 2 or sys.argv[1].startswith("-"):
        sys.exit(usage)
    return Places(sys.argv[1])
