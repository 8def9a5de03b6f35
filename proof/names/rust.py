"""Files of src/: what they bring in, and the text of their types."""
import re

from antt import Unclear


def closed(text, at):
    """The place behind the bracket that closes the one at a place."""
    depth = 0
    for place in range(at, len(text)):
        depth += (text[place] in "{([") - (text[place] in "})]")
        if depth == 0:
            return place + 1
    raise Unclear("a bracket that isn't closed")


def bare(text):
    """Rust without comments and attributes; texts in quotes stay."""
    text = re.sub(r"//[^\n]*", "", text)
    return re.sub(r"#\[(?:[^\[\]]|\[[^\]]*\])*\]", "", text)


class Source:
    """A file of src/."""

    def __init__(self, crate, path, text, where):
        self.crate, self.path, self.where, self.raw, self.text = crate, path, where, text, bare(text)
        self.ghost = [match.group(1) for match in re.finditer(r"^ghost use ([^;]*);", self.text, re.M)]
        self.imports = {}
        for match in re.finditer(r"^(?:pub(?:\([a-z]+\))? )?use ([^;]*);", self.text, re.M):
            self.bring("", match.group(1))

    def bring(self, front, tree):
        """Each leaf of a `use` tree by its name."""
        tree = re.sub(r"\s+", " ", tree).strip()
        if match := re.match(r"([^{]*)\{(.*)\}$", tree):
            for leaf in split(match.group(2)):
                self.bring(front + match.group(1), leaf)
        elif tree:
            path, _, name = tree.partition(" as ")
            whole = (front + path).strip().split("::")
            if whole[-1] == "self":
                whole.pop()
            self.imports[name.strip() or whole[-1]] = whole

    def found(self, name):
        return re.search(rf"^(?:pub(?:\([a-z]+\))? )?(struct|enum|trait|type) {name}\b", self.text, re.M)

    def opening(self, name):
        return re.compile(r"[{(;]").search(self.text, self.found(name).end())

    def front(self, name):
        return self.text[self.found(name).start():self.opening(name).start()]

    def body(self, name):
        """What stands between its brackets."""
        at = self.opening(name).start()
        return "" if self.text[at] == ";" else self.text[at + 1:closed(self.text, at) - 1]

    def model(self, name):
        match = re.search(rf"^impl(?:<[^{{]*>)? Model for {name}\b[^{{]*\{{", self.text, re.M)
        return self.text[match.end():closed(self.text, match.end() - 1) - 1] if match else None


def split(text, by=","):
    """The parts between commas that stand in no bracket; `<` with a blank before it is none."""
    parts, depth, start = [], 0, 0
    for at, sign in enumerate(text):
        depth += (sign in "{([" or sign == "<" and text[at - 1:at] != " ") - (sign in "})]" or sign == ">" and text[at - 1:at] not in "-= ")
        if sign == by and depth == 0:
            parts.append(text[start:at])
            start = at + 1
    return [part.strip() for part in parts + [text[start:]] if part.strip()]
