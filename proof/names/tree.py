"""The repository's names as a table of new names says them: modules of specs/ and proofs/, their words, files of src/, types and functions."""
import re
from functools import cache

from antt import Definition, Module
from meaning import World
from rust import Source

# a name of the repository: its kind, its crate, its place, and at the end its own word
Key = tuple


class Lemmas(Module):
    """A file of proofs/: its header, and the names that it defines; what they say isn't read."""

    def new(self, name: str, kind: str, parameters: list) -> Definition:
        self.definitions[name] = Definition(name, kind, self, parameters)
        return self.definitions[name]

    def clause(self, item: list) -> None:
        pass


class Tree(World):
    """Each name of the crates by its place."""

    def __init__(self, files: dict[str, str]):
        super().__init__(files)
        self.lemmas: dict = {}
        self.found: dict[str, list[Key | None]] = {}

    def antt(self, crate: str, kind: str, path: tuple) -> Module | None:
        if kind == "specs":
            return self.module(crate, path)
        if (crate, path) not in self.lemmas:
            where = f"crates/{crate}/proofs/{'/'.join(path or ('Lib',))}.antt"
            self.lemmas[crate, path] = Lemmas(crate, path, self.files[where], where) if where in self.files else None
        return self.lemmas[crate, path]

    def keys(self, path: list[str]) -> list[Key | None]:
        """What each component of a whole path stands for."""
        if (whole := ".".join(path)) not in self.found:
            self.found[whole] = self.looked_up(path)
        return self.found[whole]

    def looked_up(self, path: list[str]) -> list[Key | None]:
        if len(path) < 4 or path[0] != "Rattle" or path[1] not in self.crates:
            return [None] * len(path)
        crate, kind, rest = path[1], path[2], path[3:]
        if kind == "specs" and rest[0] in ("declared", "contracts"):
            return [None] * 4 + self.rust_keys(crate, rest[1:])
        if kind == "proofs" and not self.antt(crate, "proofs", (rest[0],)):
            return [None] * 3 + self.rust_keys(crate, rest)
        return [None] * 3 + self.below(crate, kind, (), rest)

    def below(self, crate: str, kind: str, path: tuple, rest: list[str]) -> list[Key | None]:
        """The same of a path that begins in a module."""
        found: list = []
        for name in rest:
            if self.antt(crate, kind, path + (name,)):
                path += (name,)
                found.append(("module", crate, kind, path))
                continue
            found.append(self.passed(crate, kind, path, name))
            break
        return found + [None] * (len(rest) - len(found))

    def passed(self, crate: str, kind: str, path: tuple, name: str) -> Key | None:
        """A word that a module has, or that it passes on."""
        module = self.antt(crate, kind, path)
        if module is None:
            return None
        if name in module.definitions or name in module.constructors:
            return ("word", crate, kind, path, name)
        for text, is_public in module.uses:
            if is_public:
                for bound, whole in leaves(text):
                    if bound == name:
                        return self.keys(whole)[-1]
        return None

    def rust_keys(self, crate: str, rest: list[str]) -> list[Key | None]:
        """The same of a path of src/, as the prover writes it."""
        path, found = (), []
        for at, name in enumerate(rest):
            if self.source(crate, path + (name,)):
                path += (name,)
                found.append(("source", crate, path))
            elif name == "fn" and at:
                found.append(None)
            else:
                key = self.item(crate, path, name)
                found += [self.inner(key, word, before) for word, before in zip(rest[at:], [name, *rest[at:]])]
                break
        return found

    def inner(self, key: Key | None, word: str, before: str) -> Key | None:
        """A name below a type: the type itself, the module of its variants, or a variant."""
        if key is None or word == key[-1] or key[0] == "function":
            return key if word == before or key and word == key[-1] else None
        if before == "TheVariants":
            return ("variant", *key[1:3], f"{key[3]}.{word}")
        return ("variants", *key[1:]) if word == "TheVariants" else key if word.startswith(key[3]) and word == before else None

    def item(self, crate: str, path: tuple, name: str) -> Key | None:
        """A type or a function of a file; a type also with the name of a trait behind it."""
        source = self.source(crate, path)
        if source is None:
            return None
        word = name.lstrip("+")
        if is_function(source, word):
            return ("function", crate, path, word)
        if word in types_of(source):
            return ("type", crate, path, word)
        types = [it for it in types_of(source) if word.startswith(it) and word[len(it):len(it) + 1].isupper()]
        return ("type", crate, path, max(types, key=len)) if types else None

    def rust_path(self, crate: str, path: tuple, comps: list[str], seen: tuple = ()) -> list[Key | None]:
        """What each component of a path of Rust stands for in a file."""
        head, found = comps[0], [None]
        if head == "crate":
            key = ("source", crate, ())
        elif head == "super":
            key = ("source", crate, path[:-1])
        elif head in self.crates:
            key = ("source", head, ())
        else:
            key = self.rust_name(crate, path, head, seen)
            found = [key]
        for name in comps[1:]:
            is_type = key and key[0] == "type" and name[0].isupper()
            key = self.rust_name(key[1], key[2], name, seen) if key and key[0] == "source" else ("variant", *key[1:3], f"{key[3]}.{name}") if is_type else None
            found.append(key)
        return found

    def rust_name(self, crate: str, path: tuple, name: str, seen: tuple = ()) -> Key | None:
        """A name of a file: a part of it, its own, or one that it brings in."""
        if self.source(crate, path + (name,)):
            return ("source", crate, path + (name,))
        source = self.source(crate, path)
        if source is None:
            return None
        if name in types_of(source):
            return ("type", crate, path, name)
        if is_function(source, name):
            return ("function", crate, path, name)
        if name in source.imports and (crate, path, name) not in seen:
            return self.rust_path(crate, path, source.imports[name], seen + ((crate, path, name),))[-1]
        return None


def is_function(source: Source, name: str) -> bool:
    return name in functions_of(source)


@cache
def functions_of(source: Source) -> set[str]:
    """The free functions of a file."""
    return set(re.findall(r"^(?:pub(?:\([a-z]+\))? )?(?:const )?fn (\w+)", source.text, re.M))


@cache
def types_of(source: Source) -> list[str]:
    return re.findall(r"^(?:pub(?:\([a-z]+\))? )?(?:struct|enum|trait|type) (\w+)", source.text, re.M)


def leaves(text: str) -> list[tuple[str, list[str]]]:
    """The names that a `use` line brings, with their whole paths."""
    front, _, inner = text.partition(".{")
    found = []
    for leaf in inner.rstrip("} ").split(",") if inner else [front]:
        path, _, name = leaf.strip().partition(" as ")
        whole = (front.split(".") if inner else []) + path.strip().split(".")
        if path:
            found.append((name.strip() or whole[-1], whole))
    return found
