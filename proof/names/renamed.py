"""A file with the names of a table: where each stands, past what hides it."""
import re
from collections.abc import Callable, Iterator

from antt import Token, Unclear, equals, indented, items_of, tokens, uncommented
from rust import closed
from table import Table
from tree import Key, Tree, leaves

# after these come names of parameters and of fields, never of functions
VALUES = {"args", "new", "old", "now", "field", "lender"}
PLAIN = re.compile(r"[^\s(){};,\[\].:=λ↦|→]+$")


class Text:
    """A text and what is to be put into it."""

    def __init__(self, tree: Tree, table: Table, where: str, text: str):
        self.tree, self.table, self.where, self.text = tree, table, where, text
        self.edits: dict[int, tuple[int, str]] = {}
        self.bound: dict[str, list[Key]] = {}       # names of the file as they are written in its header
        self.aliases: dict[str, Key] = {}           # those that the header itself gives
        self.heads: set[str] = set()                # every name with which a word begins, but labels
        self.said: set[str] = set()                 # the same of Rust
        self.hidden: list[str] = []                 # where a name is local
        self.functions: dict[str, str] = {}         # parts of the names of goals
        self.members = {key[1]: new for key, new in table.names.items() if key[0] == "member"}

    def put(self, start: int, old: str, new: str) -> None:
        if old != new:
            self.edits[start] = (len(old), new)

    def made(self, first: int = 0, last: int | None = None) -> str:
        """The text, or a part of it, with what is put into it."""
        last = len(self.text) if last is None else last
        text = self.text[first:last]
        for start, (length, new) in sorted(self.edits.items(), reverse=True):
            if first <= start < last:
                text = text[:start - first] + new + text[start - first + length:]
        return text

    def bind(self, name: str, path: list[str], is_alias: bool) -> None:
        key = self.tree.keys(path)[-1]
        if key and is_alias:
            self.aliases[name] = key
        elif key and key not in self.bound.setdefault(name, []):
            self.bound[name].append(key)

    def changes(self, name: str) -> bool:
        return any(key in self.table.names for key in self.bound.get(name, []))

    def path(self, start: int, comps: list[str], keys: list[Key | None], gap: int = 1) -> None:
        """Puts the new names into a path, whose components are `gap` signs apart."""
        for key, comp in zip(keys, comps):
            new = self.table.new(key, comp)
            self.put(start, comp, new if new != comp else self.members.get(comp, comp))
            start += len(comp) + gap

    def word(self, text: str, start: int, is_local: bool) -> None:
        """A word of a term: a whole path, a name of the file with what follows it, or a name of a goal."""
        comps = text.split(".")
        if text[0] in '".' or text[0].isdigit():
            return
        if comps[0] == "Rattle":
            return self.path(start, comps, self.tree.keys(comps))
        keys: list[Key | None] = [None] * len(comps)
        if not is_local:
            keys = self.keys(comps)
        at = start
        for place, (key, comp) in enumerate(zip(keys, comps)):
            new = self.table.new(key, comp)
            if new == comp and not (place == 0 and is_local):
                new = self.parts(comp, place, comps)
            self.put(at, comp, new)
            at += len(comp) + 1

    def keys(self, comps: list[str]) -> list[Key | None]:
        """What the components of a word stand for that begins with a name of the file."""
        head = comps[0]
        found = self.bound.get(head, [])
        if len(comps) > 1:
            for key in [*found, *([self.aliases[head]] if head in self.aliases else [])]:
                if key[0] == "variants":
                    return [key, ("variant", *key[1:3], f"{key[3]}.{comps[1]}")] + [None] * (len(comps) - 2)
                if key[0] == "module" and (below := self.tree.below(*key[1:], comps[1:]))[0]:
                    return [key if key in found else None, *below]
        items = [key for key in found if key[0] != "module"] or found
        return [items[0] if items else None] + [None] * (len(comps) - 1)

    def parts(self, comp: str, place: int, comps: list[str]) -> str:
        """A name of a goal or of what it knows: functions and members in it, between hyphens."""
        if comp in self.members:
            return self.members[comp]
        if place == 0 and "-" not in comp or place and comps[place - 1] in VALUES:
            return comp
        found = []
        for part in comp.split("-"):
            name, plus, count = part.partition("+")
            found.append(self.functions.get(name, self.members.get(name, name)) + plus + count)
        return "-".join(found)

    def comments(self, names) -> None:
        """Names in comments stand between backticks; those of the file mean what they mean in it."""
        sign = "--" if self.where.endswith(".antt") else "//"
        for line in re.finditer(rf"(?:^|(?<=[ (])){sign}[^\n]*", self.text, re.M):
            for span in re.finditer(r"`[^`\n]*`", line.group()):
                for word in re.finditer(r"[A-Za-z_]\w*", span.group()):
                    new = {self.table.new(key, word.group()) for key in self.bound.get(word.group(), [])}
                    new = new.pop() if len(new) == 1 else names.new(word.group(), [self.where.split("/")[1]], self.where, span.group())
                    self.put(line.start() + span.start() + word.start(), word.group(), new)


class Terms(Text):
    """What files of antt and ghost parts of Rust have in common: headers, and words of terms."""

    def header(self, words: list[Token], place) -> None:
        """A `use` line: what it binds, and its new names."""
        at = next(at for at, word in enumerate(words) if word.text.lstrip("(") == "use") + 1
        front = words[at]
        comps = front.text.rstrip(".*").rstrip(".").split(".")
        self.path(place(front), comps, self.tree.keys(comps))
        at += 1
        text = "".join(f" {word.text} " if word.text == "as" else word.text for word in words[at - 1:]).rstrip(";")
        for name, whole in leaves(text):
            self.bind(name, whole, name != whole[-1])
        while at < len(words) and words[at].text not in (";", "as"):
            word = words[at]
            if word.text not in (".", "{", "}", ","):
                leaf = word.text.split(".")
                keys = self.tree.keys([*comps, *leaf])[-len(leaf):]
                self.path(place(word), leaf, keys)
                if at + 1 < len(words) and words[at + 1].text == "as":
                    at += 2
            at += 1

    def terms(self, words: list[Token], place, local: dict[str, int]) -> None:
        for at, word in enumerate(words):
            head = word.text.split(".")[0]
            if is_label(words, at):
                if word.text in self.members:
                    self.put(place(word), word.text, self.members[word.text])
                continue
            self.heads.add(head)
            is_local = head in local and at >= local[head]
            if is_local and self.changes(head):
                self.hidden.append(f"{self.where}: {head} is local, line {word.line}")
            self.word(word.text, place(word), is_local)


def is_label(words: list[Token], at: int) -> bool:
    """The name of a field or of a parameter, with its value behind `=`."""
    return 0 < at < len(words) - 1 and words[at + 1].text == "=" and words[at - 1].text in ("{", ";", "record", ",")


def binders(words: list[Token], is_constructor: Callable[[str], bool], is_record: bool) -> dict[str, int]:
    """The words that are bound in a part of a file, each with the first place where it is."""
    found: dict[str, int] = {}
    for at in sorted([*of_left_side(words), *of_cases(words), *of_groups(words), *of_terms(words, is_record)]):
        text = words[at].text
        if PLAIN.match(text) and not is_constructor(text):
            found.setdefault(text, at)
    return found


def of_left_side(words: list[Token]) -> range:
    """What the patterns of a clause bind, which is no signature."""
    is_signature = any(word.text == ":" and word.column for word in words[:2])
    try:
        return range(1, 0 if is_signature else equals(words))
    except Unclear:
        return range(0)


def of_cases(words: list[Token]) -> Iterator[int]:
    """What the patterns of an `elim` bind."""
    case = None
    for at, word in enumerate(words):
        if word.text in "[|":
            case = at
        elif word.text == "↦" and case is not None:
            yield from range(case + 1, at)


def of_groups(words: list[Token]) -> Iterator[int]:
    """Names with their type in brackets."""
    for at, word in enumerate(words):
        if word.text in "({" and (colon := colon_of(words, at)):
            yield from range(at + 1, colon)


def of_terms(words: list[Token], is_record: bool) -> Iterator[int]:
    """What a λ, a `let` and a line of a `do` bind; and a record's fields."""
    depth = 0       # of brackets since a λ, from 1 on, until its dot
    for at, word in enumerate(words):
        depth = 1 if word.text == "λ" else 0 if word.text == "." or not depth else depth + (word.text in "({") - (word.text in ")}")
        if depth == 1:
            yield at
        elif word.text == "let" and at + 1 < len(words):
            yield at + 1
        elif word.text == "←" and at or is_record and word.text == ":" and at > 1 and words[at - 1].column <= 6:
            yield at - 1


def colon_of(words: list[Token], at: int) -> int | None:
    """The colon of a group that binds names."""
    for place in range(at + 1, len(words)):
        if words[place].text == ":":
            return place if place > at + 1 else None
        if not PLAIN.match(words[place].text):
            return None
    return None


class Antt(Terms):
    """A file of specs/ or proofs/."""

    def __init__(self, tree: Tree, table: Table, where: str, text: str):
        super().__init__(tree, table, where, text)
        _, self.crate, self.kind, *rest = where.split("/")
        path = tuple("/".join(rest)[:-len(".antt")].split("/"))
        self.module = path if path != ("Lib",) else ()
        self.offsets = [0]
        for line in text.split("\n"):
            self.offsets.append(self.offsets[-1] + len(line) + 1)

    def place(self, word: Token) -> int:
        return self.offsets[word.line] + word.column

    def read(self) -> "Antt":
        lines = [(number, uncommented(line)) for number, line in enumerate(self.text.split("\n"))]
        items = list(parts([it for it in lines if it[1].strip()], 0))
        own = self.tree.antt(self.crate, self.kind, self.module)
        for name in [*own.definitions, *own.constructors] if own else []:
            self.bound.setdefault(name, []).append(("word", self.crate, self.kind, self.module, name))
        self.of_function()
        uses = [it for it in items if re.match(r"(?:unfoldable )?(?:pub )?use ", it[0][1].strip())]
        for item in uses:
            self.header([word for number, line in item for word in tokens([line], number)], self.place)
        for item in items:
            words = [word for number, line in item for word in tokens([line], number)]
            if item[0][1].strip().startswith(("mod ", "pub mod ")):
                name = words[-1].text
                self.put(self.place(words[-1]), name, self.table.new(("module", self.crate, self.kind, self.module + (name,)), name))
            elif item not in uses:
                is_record = re.match(r"(pub )?record ", item[0][1].strip()) is not None
                self.terms(words, self.place, binders(words, self.is_constructor, is_record))
        return self

    def of_function(self) -> None:
        """Answers name the functions that theirs calls: those that its file has or brings in."""
        found = self.tree.rust_keys(self.crate, list(self.module)) if self.kind == "proofs" and self.module else []
        if found and found[0] and found[0][0] == "function":
            self.functions = functions_in(self.tree, self.table, self.crate, ())
        paths = [key[2] for key in found if key and key[0] == "source"]
        if paths:
            self.functions = functions_in(self.tree, self.table, self.crate, paths[-1])

    def is_constructor(self, name: str) -> bool:
        for key in self.bound.get(name, []):
            if key[0] == "word" and name in self.tree.antt(*key[1:4]).constructors or key[0] in ("type", "variant"):
                return True
        return False


def functions_in(tree: Tree, table: Table, crate: str, path: tuple) -> dict[str, str]:
    """The functions of the table that a file of Rust may call by a name, and the variants that it names."""
    source, found = tree.source(crate, path), {}
    for key, new in table.names.items():
        if key[0] == "function" and re.search(rf"\b{key[3]}\b", source.text) and visible(tree, crate, path, key):
            found[key[3]] = new
        if key[0] == "variant" and re.search(rf"\b{key[3].replace('.', '::')}\b", source.text):
            found[key[3].partition(".")[2]] = new
    return found


def visible(tree: Tree, crate: str, path: tuple, key: Key) -> bool:
    """Whether a file has a function, brings it in, or calls it by a path."""
    if tree.rust_name(crate, path, key[3]) == key:
        return True
    calls = re.findall(rf"((?:\w+::)+){key[3]}\b", tree.source(crate, path).text)
    return any(tree.rust_path(crate, path, [*front[:-2].split("::"), key[3]])[-1] == key for front in calls)


def parts(lines: list, base: int):
    """The items of a file, and those of its blocks by themselves."""
    for item in items_of(lines, base):
        if not item[0][1].strip().startswith("module _"):
            yield item
            continue
        end = next(at for at, (_, line) in enumerate(item) if line.rstrip().endswith("where"))
        yield item[:end + 1]
        if body := item[end + 1:]:
            yield from parts(body, indented(body[0][1]))


GHOST = re.compile(r"\b(?:requires|ensures|invariant|decreases)\s+(?:\w+\s+)?(?=\{)|\bghost \w+(?::| =)\s*(?=\{)|\}\s*by\s*(?=\{)")
QUIET = re.compile(r"//[^\n]*|\"(?:\\.|[^\"\\])*\"|'(?:\\.|[^'\\])'")
PATH = re.compile(r"(?<![\w'])[A-Za-z_]\w*(?:::[A-Za-z_]\w*)*")


class Rust(Terms):
    """A file of src/: its ghost parts are read as antt, the others as Rust."""

    def __init__(self, tree: Tree, table: Table, where: str, text: str):
        super().__init__(tree, table, where, text)
        _, self.crate, _, *rest = where.split("/")
        path = tuple("/".join(rest)[:-len(".rt")].split("/"))
        self.path_of = () if path in (("lib",), ("main",)) else path
        self.places: list[int] = []

    def read(self) -> "Rust":
        bare = QUIET.sub(lambda match: re.sub(r"[^\n]", " ", match.group()), self.text)
        ghosts = []
        for match in re.finditer(r"\bghost use [^;]*;", bare):
            words = self.ghost_words(match.start() + len("ghost "), match.end())
            self.header(words, self.place)
            ghosts.append(match.span())
        for match in GHOST.finditer(bare):
            end = closed(self.text, match.end())
            ghosts.append((match.end(), end))
            self.terms(self.ghost_words(match.end() + 1, end - 1), self.place, {})
        for start, end in ghosts:
            bare = bare[:start] + re.sub(r"[^\n]", " ", bare[start:end]) + bare[end:]
        self.code(bare)
        return self

    def ghost_words(self, start: int, end: int) -> list[Token]:
        """The words of a ghost part; their lines are numbers of places."""
        found = []
        for word in tokens(self.text[start:end].split("\n")):
            line = self.text[start:end].split("\n")[:word.line]
            self.places.append(start + sum(len(it) + 1 for it in line) + word.column)
            found.append(Token(word.text, len(self.places) - 1, word.column))
        return found

    def place(self, word: Token) -> int:
        return self.places[word.line]

    def code(self, bare: str) -> None:
        uses = []
        for match in re.finditer(r"^\s*(?:#\[[^\n]*\] )?(?:pub(?:\([a-z]+\))? )?use ([^;]*);", bare, re.M):
            self.tree_of_use(match.start(1), match.end(1), [], bare)
            uses.append(match.span())
        for start, end in uses:
            bare = bare[:start] + re.sub(r"[^\n]", " ", bare[start:end]) + bare[end:]
        for key, new in self.table.names.items():
            if key[0] == "variant" and key[1:3] == (self.crate, self.path_of):
                self.variant(*key[3].split("."), new, bare)
        for match in re.finditer(r"\bmod (\w+);", bare):
            self.put(match.start(1), match.group(1), self.table.new(("source", self.crate, self.path_of + (match.group(1),)), match.group(1)))
        for match in PATH.finditer(bare):
            self.name(match.group(), match.start(), bare)

    def variant(self, kind: str, name: str, new: str, bare: str) -> None:
        """A variant where its type is declared: no bracket of that is open before it."""
        head = re.search(rf"\benum {kind}\b[^{{]*\{{", bare)
        for match in re.finditer(rf"\b{name}\b", bare[head.end():closed(bare, head.end() - 1)]) if head else ():
            before = bare[head.end():head.end() + match.start()]
            if not sum(before.count(it) for it in "({[") - sum(before.count(it) for it in ")}]"):
                self.put(head.end() + match.start(), name, new)

    def name(self, text: str, start: int, bare: str) -> None:
        """A path or a name of Rust; behind a dot it is a member."""
        comps = text.split("::")
        if bare[start - 1:start] == "." and bare[start - 2:start] != "..":
            return self.path(start, comps, [None], 2)
        if len(comps) > 2 and comps[1] in ("specs", "proofs"):
            crate = self.crate if comps[0] == "crate" else comps[0]
            return self.path(start, comps, self.tree.keys(["Rattle", crate, *comps[1:]])[1:], 2)
        keys = self.tree.rust_path(self.crate, self.path_of, comps)
        if len(comps) == 1 and keys[0] and keys[0][0] == "source":
            keys = [None]
        self.said.add(comps[0])
        self.path(start, comps, keys, 2)

    def tree_of_use(self, start: int, end: int, front: list[str], bare: str) -> None:
        """Each leaf of a `use` tree."""
        text = bare[start:end]
        brace = text.find("{")
        comma = top_comma(text)
        if comma is not None:
            self.tree_of_use(start, start + comma, front, bare)
            return self.tree_of_use(start + comma + 1, end, front, bare)
        path = text[:brace] if brace >= 0 else text.partition(" as ")[0]
        match = PATH.search(path)
        if not match:
            return
        comps = [*front, *match.group().split("::")]
        own = len(comps) - len(front)
        keys = self.tree.rust_path(self.crate, self.path_of, comps)[-own:]
        self.path(start + match.start(), comps[-own:], keys, 2)
        if brace >= 0:
            self.tree_of_use(start + brace + 1, start + text.rindex("}"), comps, bare)


def top_comma(text: str) -> int | None:
    depth = 0
    for at, sign in enumerate(text):
        depth += (sign == "{") - (sign == "}")
        if sign == "," and depth == 0:
            return at
    return None
