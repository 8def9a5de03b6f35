"""What names mean: the whole repository's modules and types, and each file's own names, as the prover reads them."""
import re

from antt import Module, Unclear
from rust import Source

KIT = ("kit",)


class World:
    def __init__(self, files):
        self.files = files
        self.crates = [line.split(":")[0] for line in files["crates.txt"].split("\n") if re.match(r"\w+:", line)]
        self.modules, self.sources, self.rust, self.derived = {}, {}, {}, {}

    def module(self, crate, path):
        if (crate, path) not in self.modules:
            where = next((it for it in [f"crates/{crate}/specs/{'/'.join(path)}.antt", f"crates/{crate}/specs/{'/'.join(path + ('Lib',))}.antt"] if it in self.files), None)
            self.modules[crate, path] = Module(crate, path, self.files[where], where) if where else None
        return self.modules[crate, path]

    def source(self, crate, path):
        if (crate, path) not in self.sources:
            names = [f"{'/'.join(path)}.rt", f"{'/'.join(path + ('mod',))}.rt"] if path else ["lib.rt", "main.rt"]
            where = next((it for it in [f"crates/{crate}/src/{name}" for name in names] if it in self.files), None)
            self.sources[crate, path] = Source(crate, path, self.files[where], where) if where else None
        return self.sources[crate, path]

    # paths

    def walk(self, path, where):
        """What a whole path stands for, library first: a module, a definition, a type, or the kit's."""
        if path[0] != "Rattle" or path[1] not in self.crates:
            if path[0] in ("Rattle", "mathlib", "base", "denote", "Prim", "lib"):
                return KIT
            raise Unclear(f"{where}: no library {path[0]}")
        crate, kind, rest = path[1], path[2], tuple(path[3:])
        if kind != "specs":
            raise Unclear(f"{where}: {'.'.join(path)} is none of specs/")
        if rest[:1] in [("declared",), ("contracts",)]:
            return self.declared(crate, rest[0], rest[1:], where)
        for length in range(len(rest), -1, -1):
            if rest[:length] and self.module(crate, rest[:length]):
                return self.within(("module", crate, rest[:length]), rest[length:], where)
        raise Unclear(f"{where}: no module {'.'.join(path)}")

    def within(self, target, names, where):
        """What names behind a target stand for. Behind a value, fields follow, which are no names."""
        for name in names:
            if target[0] == "module":
                target = self.exported(target, name, where)
            elif target[0] in ("types", "variants", "constants"):
                target = self.inside(target, name, where)
            elif target[0] == "type" and self.kind_of(target) == "enum":
                target = self.inside(("variants", *target[1:]), name, where)
            else:
                return target
        return target

    def kind_of(self, target):
        return self.source(target[1], target[2]).found(target[3]).group(1)

    def exported(self, target, name, where, seen=()):
        """A name of a module: its own, its child, or one that it passes on."""
        _, crate, path = target
        module = self.module(crate, path)
        if name in module.definitions:
            return ("definition", crate, path, name)
        if name in module.constructors:
            return ("constructor", crate, path, module.constructors[name].name, name)
        if self.module(crate, path + (name,)):
            return ("module", crate, path + (name,))
        for text, is_public in module.uses:
            if is_public and target not in seen:
                for bound, found in self.bound(module, text, seen + (target,)):
                    if bound == name:
                        return found
        raise Unclear(f"{where}: {'.'.join([crate, *path])} has no {name}")

    def declared(self, crate, how, rest, where):
        """What the prover makes of src/: modules of types, of their variants and of constants, and how a type is compared."""
        for length in range(len(rest) - 1, -1, -1):
            source = self.source(crate, rest[:length])
            if source is None:
                continue
            name, behind = rest[length], rest[length + 1:]
            if name == "TheConstants":
                return self.within(("constants", crate, rest[:length]), behind, where)
            if how == "contracts" and (match := re.match(r"(\w+?)(PartialEq|Eq|Ord|PartialOrd)$", name)) and source.found(match.group(1)):
                return ("compared", crate, rest[:length], match.group(1), match.group(2))
            if source.found(name):
                return self.within(("types", crate, rest[:length], name), behind, where)
        raise Unclear(f"{where}: no type {crate} {'.'.join(rest)}")

    def inside(self, target, name, where):
        """A name in what the prover makes for a type, or for constants."""
        kind, crate, path = target[:3]
        source = self.source(crate, path)
        if kind == "constants":
            return ("constant", crate, path, name)
        if kind == "types" and name == "TheVariants":
            return ("variants", *target[1:])
        if kind == "types" and name == "TheInside":
            return target
        if kind == "types" and (name in ("Ghosts", "Inside", "the_row", target[3]) or name.startswith("out-")):
            return ("type", *target[1:])
        if kind == "variants" and re.search(rf"(?:^|[\s,{{]){name}\b", source.body(target[3])):
            return ("variant", *target[1:], name)
        raise Unclear(f"{where}: {target[3]} has no {name}")

    # headers

    def bound(self, module, text, seen=()):
        """What a `use` line brings: names with their targets."""
        match = re.match(r"([^{]*?)\.?\{(.*)\}$", text)
        if match:
            front = match.group(1).strip()
            for leaf in filter(None, match.group(2).split(",")):
                path, _, name = leaf.partition(" as ")
                whole = front.split(".") + path.strip().split(".")
                yield name.strip() or whole[-1], self.from_header(module, whole, seen)
        elif text.endswith(".*"):
            target = self.from_header(module, text[:-2].split("."), seen)
            child = self.module(*target[1:])
            for name in [*child.definitions, *child.constructors]:
                yield name, self.exported(target, name, module.where)
        else:
            path, _, name = text.partition(" as ")
            whole = path.strip().split(".")
            yield name.strip() or whole[-1], self.from_header(module, whole, seen)

    def from_header(self, module, path, seen=()):
        """A path of a header begins with `package`, a child, a name that another line brings, or a library."""
        if path[0] == "package":
            return self.walk(path[1:], module.where)
        if path[0] in module.children:
            return self.within(("module", module.crate, module.path + (path[0],)), path[1:], module.where)
        if path[0] not in ("Rattle", "mathlib", "base", "denote", "Prim", "lib"):
            for text, _ in module.uses:
                if text not in seen and not text.startswith(path[0] + "."):
                    for name, target in self.bound(module, text, seen + (text,)):
                        if name == path[0]:
                            return self.within(target, path[1:], module.where)
        return self.walk(path, module.where)

    def names(self, module):
        """What each name means in a file: its own, those of its header, and below these what globs bring."""
        if module.names is None:
            own, globs = Names(), Names()
            for text, _ in module.uses:
                for name, target in self.bound(module, text):
                    (globs if text.endswith(".*") else own).add(name, target)
            for name in module.definitions:
                own.add(name, ("definition", module.crate, module.path, name))
            for name, made in module.constructors.items():
                own.add(name, ("constructor", module.crate, module.path, made.name, name))
            for name in module.children:
                own.add(name, ("module", module.crate, module.path + (name,)))
            module.names = own.above(globs)
        return module.names


class Names:
    """What a file's names mean: items, and beside them modules, which may have the same names; and the words of which operators are made."""

    def __init__(self):
        self.items, self.modules, self.operators = {}, {}, {}

    def add(self, name, target):
        into = self.modules if target[0] in ("module", "types", "variants", "constants", "compared") else self.items
        if into.get(name, target) != target:
            if not {into[name][0], target[0]} <= {"variant", "constructor", "either"}:
                raise Unclear(f"{name} means {into[name]} and {target}")
            target = ("either", into[name], target)     # of two types: which one is meant, only their types say
        into[name] = target
        for word in name.split("◌") if "◌" in name else []:
            self.operators[word] = target

    def above(self, others):
        self.items, self.modules, self.operators = {**others.items, **self.items}, {**others.modules, **self.modules}, {**others.operators, **self.operators}
        return self

    def item(self, text):
        return self.items.get(text, self.operators.get(text))
