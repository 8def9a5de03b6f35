"""A table of new names: its rows, the places that they change, and those that go the other way."""
import re
from pathlib import PurePath

from antt import Unclear
from tree import Key, Tree

KINDS = ("specs", "proofs", "src", "word", "lemma", "type", "function", "variant", "member")


def word_of(key: Key) -> str:
    """The old name itself."""
    return key[-1].rpartition(".")[2] if isinstance(key[-1], str) else key[-1][-1]


def key_of(kind: str, crate: str, old: str) -> Key:
    """What the table calls OLD."""
    comps = tuple(old.split("."))
    if kind in ("specs", "proofs"):
        return ("module", crate, kind, comps)
    if kind == "src":
        return ("source", crate, comps)
    if kind in ("word", "lemma"):
        return ("word", crate, "specs" if kind == "word" else "proofs", comps[:-1], comps[-1])
    if kind == "member":
        return ("member", comps[-1])
    if kind == "variant":
        return ("variant", crate, comps[:-2], f"{comps[-2]}.{comps[-1]}")
    return (kind, crate, comps[:-1], comps[-1])


class Table:
    """The rows of a table: a new name for each old one."""

    def __init__(self, text: str):
        self.rows: list[tuple[str, str, str, str]] = []
        self.names: dict[Key, str] = {}
        for line in text.split("\n"):
            words = line.partition("#")[0].split()
            if not words:
                continue
            if len(words) != 4 or words[0] not in KINDS:
                raise Unclear(f"no row of a table: {line}")
            key = key_of(words[0], words[1], words[2])
            if key in self.names:
                raise Unclear(f"{words[2]} has two rows")
            self.rows.append(tuple(words))
            self.names[key] = words[3]

    def new(self, key: Key | None, word: str) -> str:
        """The new name of a component that stands for this."""
        if key not in self.names:
            return word
        if key[0] in ("type", "function"):      # a type's may have a trait's behind it
            return word.replace(key[-1], self.names[key], 1)
        return self.names[key]

    def path(self, tree: Tree, comps: list[str]) -> list[str]:
        return [self.new(key, word) for key, word in zip(tree.keys(comps), comps)]

    def file(self, tree: Tree, where: str) -> str:
        """The new path of a file."""
        top, crate, kind, *rest = where.split("/") if where.startswith("crates/") and where.count("/") > 2 else ("", "", "", where)
        if kind in ("specs", "proofs") and where.endswith(".antt"):
            comps = self.path(tree, ["Rattle", crate, kind, *"/".join(rest)[:-len(".antt")].split("/")])
            return f"{top}/{crate}/{kind}/{'/'.join(comps[3:])}.antt"
        if kind == "src" and where.endswith(".rt"):
            comps, path = [], ()
            for name in "/".join(rest)[:-len(".rt")].split("/"):
                path += (name,)
                comps.append(self.new(("source", crate, path), name))
            return f"{top}/{crate}/src/{'/'.join(comps)}.rt"
        return where

    def reversed(self, tree: Tree) -> str:
        """The table that takes all of it back."""
        found = []
        for kind, crate, old, new in self.rows:
            *front, last = old.split(".")
            if kind in ("specs", "proofs", "word", "lemma"):
                folder = "specs" if kind in ("specs", "word") else "proofs"
                front = self.path(tree, ["Rattle", crate, folder, *front])[3:]
            elif kind != "member":
                types = [front.pop()] if kind == "variant" else []
                place = tuple(front)
                front = [self.new(("source", crate, place[:at + 1]), name) for at, name in enumerate(place)]
                front += [self.new(("type", crate, place, name), name) for name in types]
            found.append(f"{kind} {crate} {'.'.join([*front, new])} {last}")
        return "\n".join(found) + "\n"


def unknown(tree: Tree, table: Table) -> list[str]:
    """Rows whose old name is nowhere."""
    found = []
    for (kind, crate, old, _), key in zip(table.rows, table.names):
        comps = old.split(".")
        if key[0] == "module":
            is_there = tree.antt(crate, kind, key[3]) is not None
        elif key[0] == "source":
            is_there = tree.source(crate, key[2]) is not None
        elif key[0] == "word":
            is_there = tree.antt(crate, key[2], key[3]) is not None and tree.below(crate, key[2], key[3], [key[4]]) == [key]
        elif key[0] == "variant":
            is_there = re.search(rf"\b{comps[-1]}\b", tree.source(crate, key[2]).body(comps[-2])) is not None
        elif key[0] == "member":
            is_there = any(re.search(rf"\b{key[1]}\b", text) for where, text in tree.files.items() if where.startswith(f"crates/{crate}/"))
        else:
            is_there = tree.item(crate, tuple(comps[:-1]), comps[-1]) == key
        if not is_there:
            found.append(f"{kind} {crate} {old}: not there")
    return found


def crowded(tree: Tree, table: Table, is_back: bool) -> list[str]:
    """New names that their folder or module has, or that differ only in case from one there, as old ones that come back may."""
    paths = {PurePath(where) for where in tree.files}
    found = []
    for (kind, crate, old, new), key in zip(table.rows, table.names):
        if key[0] in ("module", "source"):
            folder = PurePath("crates", crate, kind, *key[-1][:-1])
            others = {it.stem for it in paths if it.parent == folder} - {key[-1][-1]}
            others = {table.new((*key[:-1], key[-1][:-1] + (it,)), it) for it in others}
        elif key[0] == "word":
            module = tree.antt(crate, key[2], key[3])
            others = {table.new((*key[:-1], it), it) for it in {*module.definitions, *module.constructors} - {key[4]}}
        else:
            continue
        if hit := [it for it in others if it == new or it.lower() == new.lower() and not is_back]:
            found.append(f"{kind} {crate} {old}: {hit[0]} is there beside {new}")
    return found
