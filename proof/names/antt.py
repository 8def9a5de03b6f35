"""Files of specs/ as words: their headers, and their definitions with signatures, clauses, fields and constructors."""
import re


class Unclear(Exception):
    """A text that this script can't follow."""


WORD = re.compile(r'"(?:\\.|[^"\\])*"|\[\]|[(){};,\[\]]|[^\s(){};,\[\]"]+')


class Token:
    __slots__ = ("text", "line", "column")

    def __init__(self, text, line, column):
        self.text, self.line, self.column = text, line, column

    def __repr__(self):
        return self.text


def uncommented(line):
    """The line without its comment: `--` begins one where a word begins."""
    if "--" not in line:
        return line.rstrip()
    place, quoted = 0, False
    while place < len(line):
        if line[place] == '"' and line[place - 1:place] != "\\":
            quoted = not quoted
        if not quoted and line.startswith("--", place) and (place == 0 or line[place - 1] in " ({"):
            return line[:place].rstrip()
        place += 1
    return line.rstrip()


def tokens(lines, first=0):
    """The words of lines; the dot that ends what a λ binds is a word of its own."""
    found = []
    for number, line in enumerate(lines, first):
        for match in WORD.finditer(line):
            text = match.group()
            if len(text) > 1 and text.endswith(".") and not text.startswith("."):
                found += [Token(text[:-1], number, match.start()), Token(".", number, match.end() - 1)]
            else:
                found.append(Token(text, number, match.start()))
    return found


def indented(line):
    return len(line) - len(line.lstrip())


class Definition:
    """A definition: its name and kind, the lines of its signature, clauses, fields or constructors, and the parameters of the blocks around it."""

    def __init__(self, name, kind, module, parameters):
        self.name, self.kind, self.module, self.parameters = name, kind, module, parameters
        self.signature, self.clauses, self.parts = [], [], []

    def text(self):
        return f"{self.name} " + " ".join(" ".join(token.text for token in part) for part in [self.signature, *self.clauses, *self.parts])


SIGNATURE = re.compile(r"(?:(?:pattern|unfoldable|abbrev|pub) +)*([^\s(){};,:]+) +:(?: |$)")
TYPE = re.compile(r"(?:pub +)?(record|data) +([^\s(){};,:]+)")


def items_of(lines, base):
    """The lines of one block as items: each begins at the block's column, with what is further in below it, and a bracket that closes."""
    found = []
    for number, line in lines:
        if not line.strip():
            continue
        if not found or indented(line) == base and line.strip()[0] not in ")}":
            found.append([(number, line)])
        else:
            found[-1].append((number, line))
    return found


class Module:
    """A file of specs/: its header, and its definitions by name."""

    def __init__(self, crate, path, text, where):
        self.crate, self.path, self.where = crate, path, where
        self.uses, self.children, self.globs = [], set(), []
        self.definitions, self.constructors = {}, {}
        self.names = None       # what its names mean, once it was asked
        lines = [(number, uncommented(line)) for number, line in enumerate(text.split("\n"), 1)]
        self.read([it for it in lines if it[1].strip()], 0, [])

    def read(self, lines, base, parameters):
        for item in items_of(lines, base):
            head = item[0][1].strip()
            joined = " ".join(line.strip() for _, line in item)
            if re.match(r"(unfoldable )?(pub )?use ", head):
                self.uses.append((joined.split("use ", 1)[1].strip(), "pub " in joined.split("use ", 1)[0]))
            elif match := re.match(r"(?:pub )?mod (\S+)$", head):
                self.children.add(match.group(1))
            elif re.match(r"infix[lr]? |unfolding ", head):
                continue
            elif head.startswith("module _"):
                self.block(item, parameters)
            elif match := TYPE.match(head):
                self.type(match.group(1), match.group(2), item, parameters)
            elif match := SIGNATURE.match(head):
                self.signature(match, item, parameters)
            else:
                self.clause(item)

    def block(self, item, parameters):
        end = next(at for at, (_, line) in enumerate(item) if line.rstrip().endswith("where"))
        head = tokens([line for _, line in item[:end + 1]])[2:-1]
        body = item[end + 1:]
        self.read(body, indented(body[0][1]), parameters + head)

    def new(self, name, kind, parameters):
        if name in self.definitions:
            raise Unclear(f"{self.where}: {name} is defined twice")
        self.definitions[name] = Definition(name, kind, self, parameters)
        return self.definitions[name]

    def type(self, kind, name, item, parameters):
        end = next(at for at, (_, line) in enumerate(item) if line.rstrip().endswith("where"))
        made = self.new(name, kind, parameters)
        head = tokens([line for _, line in item[:end + 1]])
        made.signature = head[next(at for at, token in enumerate(head) if token.text == name) + 1:-1]
        body = item[end + 1:]
        for part in items_of(body, indented(body[0][1])) if body else []:
            words = tokens([line for _, line in part])
            if words[0].text == "pub":
                words = words[1:]
            made.parts.append(words)
            if kind == "data":
                for word in words[:next(at for at, token in enumerate(words) if token.text == ":")]:
                    self.constructors[word.text] = made

    def signature(self, match, item, parameters):
        made = self.new(match.group(1), "function", parameters)
        words = tokens([line for _, line in item])
        made.signature = words[next(at for at, token in enumerate(words) if token.text == ":") + 1:]
        self.last = made

    def clause(self, item):
        words = tokens([line for _, line in item], item[0][0])
        if any(token.text == "where" for token in words):
            raise Unclear(f"{self.where}:{item[0][0]}: a clause with a `where`")
        names = {token.text for token in words[:equals(words)]}
        name = self.last.name
        if name not in names and not names.intersection(name.split("◌")):
            raise Unclear(f"{self.where}:{item[0][0]}: a clause of {name} was awaited")
        self.last.clauses.append(words)


def equals(words):
    """The place of the `=` that ends a clause's left side."""
    depth = 0
    for at, token in enumerate(words):
        depth += (token.text in "({") - (token.text in ")}")
        if token.text == "=" and depth == 0:
            return at
    raise Unclear(f"no `=` in {words[:8]}")
