"""Names outside the sources: in pages and scripts, in edits that have to be refused, in what is weighed and recorded."""
import re
from collections import defaultdict

from renamed import Antt, Rust, Text
from table import Table, word_of
from tree import Key, Tree, types_of

IN_CRATES = re.compile(r"(crates|acd_\w+|specs|proofs|src|\.)/|\S+\.(antt|rt)$")
FOLDER = re.compile(r"(?:acd_\w+/)?(?:specs|proofs)$")
MARK = "The crate is cut to what that body stands on"


def reader(tree: Tree, table: Table, where: str, text: str) -> Text:
    return (Antt if where.endswith(".antt") else Rust)(tree, table, where, text).read()


class Names:
    """Whatever the crates call by one word."""

    def __init__(self, tree: Tree, table: Table):
        self.tree, self.table = tree, table
        self.all: dict[str, set[Key]] = defaultdict(set)
        self.asked: list[str] = []
        self.said = {word_of(key) for key in table.names}
        for where in tree.files:
            if where.startswith("crates/"):
                self.add(where)
        for key in table.names:
            if key[0] in ("member", "variant"):
                self.all[word_of(key)].add(key)

    def add(self, where: str) -> None:
        _, crate, kind, *rest = where.split("/")
        path = tuple("/".join(rest).rpartition(".")[0].split("/"))
        if kind == "src":
            source = self.tree.source(crate, () if path[-1] in ("lib", "main") else path)
            if source:
                self.all[path[-1]].add(("source", crate, path))
                for name in types_of(source):
                    self.all[name].add(("type", crate, source.path, name))
                for name in re.findall(r"\bfn (\w+)", source.text):
                    self.all[name].add(("function", crate, source.path, name))
        elif module := self.tree.antt(crate, kind, path) if path[-1] not in ("Answers", "Invariants") else None:
            self.all[path[-1]].add(("module", crate, kind, path))
            for name, made in module.definitions.items():
                self.all[name].add(("word", crate, kind, path, name))
                for part in made.parts if made.kind == "record" else []:
                    self.all[part[0].text].add(("field", crate, kind, path, part[0].text))

    def new(self, word: str, crates: list[str], where: str, span: str) -> str:
        """The new name of a word, where all that have it get the same one: in these crates if some are named, files in a path, and else first what isn't one."""
        keys = self.all.get(word, set())
        keys = {key for key in keys if key[0] == "member" or key[1] in crates} or keys
        if IN_CRATES.match(span):
            folders = {it for it in ("specs", "proofs") if it in span.split("/")}
            if re.search(rf"\b(src|proofs)/{word}\b", span):
                keys = {key for key in keys if key[0] == "source"} or keys
            keys = {key for key in keys if key[0] == "module" and (not folders or key[2] in folders) or key[0] in ("source", "function", "type") and folders != {"specs"}} or keys
        else:
            keys = {key for key in keys if key[0] not in ("module", "source")} or keys
        names = {self.table.new(key, word) for key in keys} or {word}
        if len(names) == 1:
            return names.pop()
        if word in self.said:
            self.asked.append(f"{where}: {word}: which one? {' '.join(sorted(names - {word}))}")
        return word

    def words(self, text: str, crates: list[str], where: str) -> str:
        return re.sub(r"(?<!\w)[A-Za-z_]\w*", lambda match: self.new(match.group(), crates, where, text), text)

    def page(self, where: str, text: str) -> str:
        """A page or a script: the names between marks, with the crate that was named before them on the line."""
        mark = "`" if where.endswith(".md") else '"'
        found = []
        for number, line in enumerate(text.split("\n"), 1):
            crates: list[str] = []
            folder = ""         # after a folder, names are those of its files, up to the end of the cell
            spans = line.split(mark)
            for at, span in enumerate(spans):
                crates = [it for it in re.findall(r"acd_\w+", span) if it in self.tree.crates] or crates
                if at % 2:
                    folder = f"{span}/" if FOLDER.match(span) and mark == "`" else "" if "/" in span else folder
                    is_name = folder and re.match(r"[A-Z]\w*$", span)
                    found_here = self.words(f"{folder}{span}" if is_name else span, crates[-1:], f"{where}:{number}")
                    spans[at] = found_here.rpartition("/")[2] if is_name else found_here
                elif "|" in span:
                    folder = ""
            found.append(mark.join(spans))
        return "\n".join(found)

    def weighed(self, where: str, text: str) -> str:
        found = []
        for number, line in enumerate(text.split("\n"), 1):
            if line.startswith(" "):
                crates, *patterns = line.split()
                line = " ".join(["", crates, *(self.words(it, crates.split(","), f"{where}:{number}") for it in patterns)])
            found.append(line)
        return "\n".join(found)

    def record(self, text: str) -> str:
        """What refused each wrong body, as the prover wrote it."""
        def path(match: re.Match) -> str:
            return ".".join(self.table.path(self.tree, match.group().split(".")))

        def rust(match: re.Match) -> str:
            crate, *rest = match.group().split("::")
            return "::".join([crate, *(self.table.new(key, it) for key, it in zip(self.tree.rust_keys(crate, rest), rest))])

        lines = []
        for line in text.split("\n"):
            crate = line.split(" ")[0]
            line = re.sub(r"\bRattle(?:\.[\w+-]+)+", path, line)
            line = re.sub(r"\bacd_\w+(?:::\w+)+", rust, line)
            lines.append(re.sub(r"(?<=\./)proofs/[^:; ]+\.antt", lambda match: self.table.file(self.tree, f"crates/{crate}/{match.group()}").split("/", 2)[2], line))
        return "\n".join(lines)

    def piece(self, file: str, text: str, start: int, said: str) -> str:
        """A piece of a file with its new names."""
        if not any(self.table.new(key, word) != word for word in re.findall(r"\w+", said) for key in self.all.get(word, ())):
            return said
        return reader(self.tree, self.table, file, text).made(start, start + len(said))

    def edit(self, where: str, text: str) -> str:
        """A wrong body: the files that it changes, its old lines as they are then, and the new ones as if they were there. The cut is left to cut-edits."""
        crate = where.split("/")[-2] if where.startswith("proof/") else where.split("/")[1]
        made, file, start, old = [], "", 0, ""
        texts: dict[str, str] = {}
        body, mark, cut = text.partition(MARK)
        outside = False
        for line in body.split("\n"):
            key, _, said = line.partition(": ")
            if key == "file":
                # crates.txt, which has names of crates alone
                outside = said.startswith("../")
            if outside:
                made.append(line)
                continue
            if key == "file":
                file = f"crates/{crate}/{said.strip()}"
                texts.setdefault(file, self.tree.files[file])
                said = self.table.file(self.tree, file).split("/", 2)[2]
            elif key == "old" and said:
                found = re.search(r"\s*".join(map(re.escape, re.findall(r"\w+|\S", said))), texts[file])
                if not found:
                    self.asked.append(f"{where}: not there: {said}")
                    return text
                texts[file] = texts[file][:found.start()] + said + texts[file][found.end():]
                old, start = said, found.start()
                said = self.piece(file, texts[file], start, said)
            elif key == "new" and said:
                texts[file] = texts[file][:start] + said + texts[file][start + len(old):]
                said = self.piece(file, texts[file], start, said)
            elif key == "without":
                said = " ".join(self.record(f"{crate}::{it}").partition("::")[2] for it in said.split(" "))
            made.append(f"{key}: {said}" if line.startswith(f"{key}: ") else line)
        return "\n".join(made) + mark + cut
