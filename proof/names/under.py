"""What stands under a definition: the names that its terms use, past whatever hides them."""
import re

from antt import Module, Unclear, equals, tokens
from meaning import KIT
from rust import closed, split

# what antt reads without a `use` line, and the words of its grammar
PRELUDE = set("Type Unit tt ⊥ absurd × → ¬ = : | ↦ λ let in do as elim [ ] record where _ ← . IsProp IsSet Dec yes no ∥ ∥₁ ∣ ∣₁ refl".split())
# what Rust reads so
STD = set("Option Result Vec String Box Self bool char str u8 u16 u32 u64 usize i64 u128 Global".split())


class Reader:
    """Goes through terms, with what is bound in them, and notes each name that the file gives a meaning to."""

    def __init__(self, world, names, where):
        self.world, self.known, self.where, self.found = world, names, where, set()

    def note(self, target):
        """A variant and a constructor are of their type."""
        if target[0] == "either":
            return [self.note(each) for each in target[1:]]
        if target[0] in ("variant", "constructor"):
            target = ("type" if target[0] == "variant" else "definition", *target[1:4])
        if target[0] in UNDER:
            self.found.add(target)
        elif target != KIT:
            raise Unclear(f"{self.where}: {target} is no value")

    def word(self, text, scope):
        """A name, or a path that begins with one; fields behind a value are no names."""
        if text[0] in '".' or re.match(r"[0-9]|_+$", text) or text in scope or text in PRELUDE:
            return
        if (target := self.known.item(text)) is not None:
            return self.note(target)
        head, *rest = text.split(".")
        if head in scope:
            return
        if head in ("Rattle", "package"):
            return self.note(self.world.walk([head, *rest][head == "package":], self.where))
        targets = [names[head] for names in (self.known.items, self.known.modules) if head in names] if rest else []
        for target in targets:
            try:
                return self.note(self.world.within(target, rest, self.where))
            except Unclear:
                if target is targets[-1]:
                    raise
        raise Unclear(f"{self.where}: {text} is bound nowhere")

    def term(self, words, scope):
        """Goes through the words of one group; what is bound in it is bound to its end."""
        outer, scope, at = scope, set(scope), 0
        waiting = []        # names of `let`, until their `in`
        while at < len(words):
            text = words[at].text
            if text in "({":
                at = self.group(words, at, scope)
            elif text == "[":
                at = self.cases(words, at, scope)
            elif text == "λ":
                at = self.binders(words, at + 1, scope)
            elif text == "let":
                waiting.append(words[at + 1].text)
                at += 2
            elif text == "in" and waiting:
                scope.add(waiting.pop())
                at += 1
            elif text == "do":
                return self.statements(words[at + 1:], scope)
            else:
                if text in (";", ","):
                    scope = set(outer)
                else:
                    self.word(text, scope)
                at += 1

    def end(self, words, at):
        depth, signs = 0, {"(": 1, "{": 1, "[": 1, ")": -1, "}": -1, "]": -1}
        for place in range(at, len(words)):
            depth += signs.get(words[place].text, 0)
            if depth == 0:
                return place
        raise Unclear(f"{self.where}: a bracket that isn't closed")

    def group(self, words, at, scope):
        """A group in brackets: names with a type, which are bound from here on; fields with values; or a term."""
        end = self.end(words, at)
        inner = words[at + 1:end]
        colon = next((place for place, token in enumerate(inner) if token.text == ":"), None)
        if colon is not None and colon and all(is_plain(token.text) for token in inner[:colon]):
            self.term(inner[colon + 1:], scope)
            scope.update(token.text for token in inner[:colon])
        elif words[at].text == "{":
            for part in parts_of(inner):
                self.term(part[2:] if len(part) > 1 and part[1].text == "=" else part, scope)
        else:
            self.term(inner, scope)
        return end + 1

    def binders(self, words, at, scope):
        """What a λ binds, up to its dot."""
        while words[at].text != ".":
            if words[at].text in "({":
                end = self.end(words, at)
                if any(token.text == ":" for token in words[at:end]):
                    self.group(words, at, scope)
                else:
                    scope.update(token.text for token in words[at + 1:end] if is_plain(token.text))
                at = end + 1
            else:
                scope.add(words[at].text)
                at += 1
        return at + 1

    def cases(self, words, at, scope):
        """The cases of an `elim`."""
        end, start = self.end(words, at), at + 1
        for place in [*[it for it in range(at + 1, end) if words[it].text == "|"], end]:
            case = words[start:place]
            arrow = next((it for it, token in enumerate(case) if token.text == "↦"), None)
            if arrow is not None:
                self.term(case[arrow + 1:], scope | self.pattern(case[:arrow]))
            elif case:
                self.term(case, scope)
            start = place + 1
        return end + 1

    def statements(self, words, scope):
        """The lines of a `do`: each binds its name for those below it. They are joined by the operators of the file."""
        starts = [at for at, token in enumerate(words) if token.column == words[0].column and (at == 0 or words[at - 1].line < token.line)]
        for start, end in zip(starts, starts[1:] + [len(words)]):
            line = words[start:end]
            if len(line) > 1 and line[1].text == "←":
                self.word(">>=", scope)
                self.term(line[2:], scope)
                scope.add(line[0].text)
            else:
                if end < len(words):
                    self.word(">>", scope)
                self.term(line, scope)

    def pattern(self, words):
        """What patterns bind: each word that is no constructor. A constructor is noted."""
        bound = set()
        for at, token in enumerate(words):
            text = token.text
            if text in "(){},;=" or text in PRELUDE or re.match(r'[0-9"]', text) or words[at + 1:] and words[at + 1].text == "=":
                continue
            if "." in text.strip("."):
                self.word(text, set())
                continue
            target = self.known.item(text)
            if target is not None and target[0] in ("kit", "variant", "constructor", "either"):
                self.note(target)
            else:
                bound.add(text)
        return bound


def is_plain(text):
    return not re.search(r'[.(){};,"]', text) and text not in PRELUDE - {"_"}


def parts_of(words):
    """The parts between semicolons that stand in no bracket."""
    parts, depth = [[]], 0
    for token in words:
        depth += (token.text in "({[") - (token.text in ")}]")
        if token.text == ";" and depth == 0:
            parts.append([])
        else:
            parts[-1].append(token)
    return [part for part in parts if part]


def under_definition(world, target):
    _, crate, path, name = target
    module = world.module(crate, path)
    made = module.definitions[name]
    reader = Reader(world, world.names(module), f"{module.where}: {name}")
    scope = set()
    at = 0
    while at < len(made.parameters):        # those of the blocks around it, in front of its own
        at = reader.group(made.parameters, at, scope)
    if made.kind == "function":
        reader.term(made.signature, scope)
        for clause in made.clauses:
            left = [token for token in clause[:equals(clause)] if token.text != name and token.text not in name.split("◌")]
            reader.term(clause[equals(clause) + 1:], scope | reader.pattern(left))
        return reader.found, made.text()
    colon = next(at for at, token in enumerate(made.signature) if token.text == ":" and depth_at(made.signature, at) == 0)
    at = 0
    while at < colon:
        at = reader.group(made.signature, at, scope)
    reader.term(made.signature[colon + 1:], scope)
    for part in made.parts:
        middle = next(at for at, token in enumerate(part) if token.text == ":")
        reader.term(part[middle + 1:], scope)
        if made.kind == "record":
            scope.add(part[0].text)
    return reader.found - {target}, made.text()


def depth_at(words, end):
    return sum((token.text in "({") - (token.text in ")}") for token in words[:end])


class RustReader:
    """What stands under a type of src/."""

    def __init__(self, world, source, name):
        self.world, self.source, self.name = world, source, name
        self.where, self.found = f"{source.where}: {name}", set()
        self.kind = source.found(name).group(1)
        self.front, self.body = source.front(name), source.body(name)
        parameters = re.search(r"<(.*)>", self.front.partition("=")[0])
        self.own = set(re.findall(r"\b[A-Z]\w*\b", re.sub(r":[^,>]*", "", parameters.group(1) if parameters else "")))

    def type(self, text):
        """Each type that a text names: of this file, brought in, or of std."""
        for path in re.findall(r"(?<!\w)[A-Za-z_]\w*(?:::[A-Za-z_]\w*)*", re.sub(r"'\w+", "", text)):
            if path in STD or path in self.own or path in ("dyn", "mut", "pub", "crate", "const", "static", "as"):
                continue
            target = self.resolve(path.split("::"))
            if target != KIT:
                self.found.add(target)

    def resolve(self, path):
        source = self.source
        if len(path) == 1 and source.found(path[0]):
            return ("type", source.crate, source.path, path[0])
        if path[0] in source.imports:
            return self.at(source.crate, source.imports[path[0]] + path[1:])
        if path[0] in ("crate", "super", "self") or path[0] in self.world.crates:
            return self.at(source.crate, path)
        if path[0] in ("std", "core"):
            return KIT
        raise Unclear(f"{self.where}: no type {'::'.join(path)}")

    def at(self, crate, path):
        """A path of rust from a crate on: down its modules, or through what its modules pass on."""
        if path[0] == "crate":
            path = path[1:]
        elif path[0] == "super":
            path = [*self.source.path[:-1], *path[1:]]
        elif path[0] in self.world.crates:
            crate, path = path[0], path[1:]
        elif not self.world.source(crate, (path[0],)):
            return KIT
        *modules, name = path
        source = self.world.source(crate, tuple(modules))
        if source is None:
            raise Unclear(f"{self.where}: no module {crate} {'::'.join(modules)}")
        if source.found(name):
            return ("type", crate, tuple(modules), name)
        if name in source.imports:
            return self.at(crate, source.imports[name])
        raise Unclear(f"{self.where}: no type {name} in {source.where}")

    def terms(self, text, uses, scope):
        """A term of a ghost item, by the lines that bring names into it."""
        module = Module(self.source.crate, ("",), "\n".join(f"use {' '.join(use.split())}" for use in uses), self.where)
        reader = Reader(self.world, self.world.names(module), self.where)
        reader.term(tokens(text.split("\n")), scope | self.own)
        self.found |= reader.found

    def fields(self):
        """Each part of a struct: its name, and its type or its ghost fact."""
        for place, part in enumerate(split(self.body)):
            part = re.sub(r"^pub(\([a-z]+\))? ", "", part)
            match = re.match(r"(ghost )?(\w+)\s*:\s*(.*)$", part, re.S)
            yield (match.group(2), match.group(3), bool(match.group(1))) if match else (str(place), part, False)

    def payloads(self):
        """The types of what an enum's variants hold."""
        for part in split(self.body):
            inner = re.search(r"[{(](.*)[})]$", part, re.S)
            for field in split(inner.group(1)) if inner else []:
                yield re.sub(r"^\w+\s*:\s*", "", field)

    def parts(self):
        """The types of all parts, whatever contracts see."""
        parts = [self.front.partition("=")[2]] if self.kind == "type" else self.payloads() if self.kind == "enum" else [kind for _, kind, is_ghost in self.fields() if not is_ghost]
        for kind in parts:
            self.type(kind)
        return self.found

    def read(self):
        model = self.source.model(self.name) if self.kind == "struct" else None
        text = [self.front]
        if self.kind == "trait":
            text += self.read_trait()
        elif self.kind == "type":
            self.parts()
        elif self.kind == "enum":
            text.append(self.body)
            self.parts()
        elif model is not None:
            text.append(self.read_model(model))
        else:
            text.append(self.body)
            scope = set()
            for name, kind, is_ghost in self.fields():
                if is_ghost:
                    self.terms(kind.strip().strip("{}"), self.source.ghost, scope)
                else:
                    self.type(kind)
                scope.add(name)
        return self.found, " ".join(" ".join(text).split())

    def read_model(self, model):
        """What contracts see in its place."""
        match = re.search(r"ghost Value = \{", model)
        value = model[match.end():closed(model, match.end() - 1) - 1]
        self.terms(value, re.findall(r"ghost use ([^;]*);", model[:match.start()]) or self.source.ghost, set())
        return value

    def read_trait(self):
        """The ghost members above its first function; those below are laws."""
        front = re.split(r"^\s*(?:final )?fn ", self.body, maxsplit=1, flags=re.M)[0]
        found = []
        for match in re.finditer(r"ghost (\w+)\s*:\s*\{", front):
            body = front[match.end():closed(front, match.end() - 1) - 1]
            self.terms(body, self.source.ghost, {"Self", *[it.group(1) for it in re.finditer(r"ghost (\w+)", front)]})
            found.append(f"{match.group(1)}: {body}")
        return found


def under_comparison(world, target):
    """How values of a type are compared: part by part where that is derived, else by what is written."""
    _, crate, path, name, trait = target
    source = world.source(crate, path)
    written = re.search(rf"^impl(?:<[^{{]*>)? {trait} for {name}\b[^{{]*\{{", source.text, re.M)
    reader = RustReader(world, source, name)
    if written:
        body = source.text[written.end():closed(source.text, written.end() - 1) - 1]
        found = []
        for match in re.finditer(r"ghost (eq|cmp|partial_cmp) = \{", body):
            term = body[match.end():closed(body, match.end() - 1) - 1]
            reader.terms(term, re.findall(r"ghost use ([^;]*);", body) or source.ghost, set())
            found.append(term)
        return reader.found, f"{trait} for {name}: {' '.join(found)}"
    derived = re.search(rf"((?:^(?:#\[.*\]|///.*)\n)*)^(?:pub(?:\([a-z]+\))? )?(?:struct|enum|type) {name}\b", source.raw, re.M)
    if reader.kind != "type" and not re.search(rf"\b{trait}\b", derived.group(1)):
        raise Unclear(f"{source.where}: {name} has no {trait}")
    return {("compared", *it[1:], trait) for it in reader.parts()} | {("type", crate, path, name)}, f"derive({trait}) for {name}"


def under_constant(world, target):
    _, crate, path, name = target
    source = world.source(crate, path)
    match = re.search(rf"^(?:pub(?:\([a-z]+\))? )?const {name}: [^=]*= ", source.text, re.M)
    if not match:
        raise Unclear(f"{source.where}: no constant {name}")
    return set(), " ".join(source.text[match.start():source.text.index(";", match.end())].split())


UNDER = {"definition": under_definition, "compared": under_comparison, "constant": under_constant,
         "type": lambda world, target: RustReader(world, world.source(target[1], target[2]), target[3]).read()}
