"""What a disk may have behind a power cut, at each call by which a traced command changed a folder: what was written and not synced is lost, or its names are, or both. It is
reckoned out of what strace says: which bytes went where, and which files and folders were synced."""
import hashlib
import re
from pathlib import Path

from chains import identity

TRACED = ("openat", "mkdir", "lseek", "write", "pwrite64", "ftruncate", "fsync", "fdatasync", "unlink", "rmdir", "rename", "renameat2", "copy_file_range", "sendfile",
          "fallocate", "pwritev", "writev")
# what isn't reckoned with, and so mustn't be there
UNKNOWN = ("copy_file_range", "sendfile", "fallocate", "pwritev", "writev")
TEXT = re.compile(r'"((?:\\x[0-9a-f]{2})*)"')
# what is lost: bytes that weren't synced, names that weren't
LOSSES = [("bytes and names", True, True), ("bytes", True, False), ("names", False, True)]


def strace(trace):
    return ["strace", "-f", "-qq", "-y", "-xx", "-s", "99999999", "-o", trace, "-e", "trace=" + ",".join(f"?{name}" for name in TRACED)]


def text_of(found):
    return bytes.fromhex(found.replace("\\x", ""))


class File:
    def __init__(self, data=b"", synced=b""):
        self.data, self.synced, self.at = bytearray(data), synced, 0

    def write(self, data, at):
        self.data.extend(bytes(max(0, at - len(self.data))))
        self.data[at:at + len(data)] = data


class Disk:
    """A folder and the folders in it, by their paths; a folder is None."""

    def __init__(self, folder):
        self.folder = str(folder)
        self.now = {str(path): None if path.is_dir() else File(path.read_bytes(), path.read_bytes()) for path in Path(folder).rglob("*")}
        self.synced, self.moves = dict(self.now), []

    def has(self, path):
        return path.startswith(f"{self.folder}/") or path == self.folder

    def sync(self, path):
        if path in self.now and self.now[path] is not None:
            self.now[path].synced = bytes(self.now[path].data)
            return
        # a name that was moved from one folder to another is in both of them, or in neither
        moved = {name for move in self.moves if path in [name.rpartition("/")[0] for name in move] for name in move}
        for name in {*self.now, *self.synced}:
            if name.rpartition("/")[0] == path or name in moved:
                self.synced.pop(name, None)
                if name in self.now:
                    self.synced[name] = self.now[name]

    def move(self, old, new, is_exchange):
        self.moves.append((old, new))
        if is_exchange:
            self.now[old], self.now[new] = self.now[new], self.now[old]
        else:
            self.now[new] = self.now.pop(old)

    def call(self, name, words, result):
        """What a call did; whether it changed something."""
        texts = [text_of(found) for found in TEXT.findall(words)]
        at = re.match(r"\d+<([^>]*)>", words)
        # the name behind a descriptor is in hexadecimal too
        path = text_of(at[1]).decode() if at and at[1].startswith("\\x") else at[1] if at else texts[0].decode() if texts else ""
        path = path.removesuffix(" (deleted)")
        if name == "openat":
            path = texts[0].decode()
        if not self.has(path) and not (name.startswith("rename") and self.has(texts[-1].decode())):
            return False
        if name in UNKNOWN:
            raise SystemExit(f"try-years: {name} isn't reckoned with")
        return self.change(name, path, texts, words, result)

    def change(self, name, path, texts, words, result):
        file = self.now.get(path)
        if name == "openat":
            return self.open(path, words)
        if name == "mkdir":
            self.now[path] = None
        elif name in ("unlink", "rmdir"):
            self.now.pop(path)
        elif name.startswith("rename"):
            self.move(texts[0].decode(), texts[1].decode(), "RENAME_EXCHANGE" in words)
        elif name in ("fsync", "fdatasync"):
            self.sync(path)
        elif file is None:
            return False
        elif name == "lseek":
            file.at = result
            return False
        elif name == "ftruncate":
            size = int(words.rpartition(", ")[2])
            del file.data[size:]
            file.write(b"", size)
        else:
            at = int(words.rpartition(", ")[2]) if name == "pwrite64" else file.at
            file.write(texts[0][:result], at)
            file.at = file.at if name == "pwrite64" else at + result
        return True

    def open(self, path, words):
        if path not in self.now and "O_CREAT" in words:
            self.now[path] = File()
        elif self.now.get(path) is not None and "O_TRUNC" in words:
            self.now[path].data = bytearray()
        elif self.now.get(path) is not None:
            self.now[path].at = 0
            return False
        else:
            return False
        self.now[path].at = 0
        return True

    def state(self, loses_bytes, loses_names):
        """Files and their bytes by the names that are there where these are lost. What lies in a folder without a name has none either."""
        names = self.synced if loses_names else self.now
        return {path: (file, None if file is None else bytes(file.synced if loses_bytes else file.data)) for path, file in sorted(names.items())
                if path.rpartition("/")[0] in names or path.rpartition("/")[0] == self.folder}

    def is_as_it_is(self):
        """Whether what was reckoned lies there."""
        there = {str(path): None if path.is_dir() else path.read_bytes() for path in Path(self.folder).rglob("*")}
        return there == {path: None if file is None else bytes(file.data) for path, file in self.now.items()}


def calls(trace):
    """Name, words and result of each call. One that another process interrupted stands in two lines."""
    begun = {}
    for line in Path(trace).read_text().splitlines():
        process, _, rest = line.partition(" ")
        rest = rest.strip()
        if rest.endswith("<unfinished ...>"):
            begun[process] = rest.removesuffix("<unfinished ...>").rstrip()
            continue
        if rest.startswith("<... "):
            rest = begun.pop(process) + rest.partition(" resumed>")[2]
        found = re.fullmatch(r"(\w+)\((.*)\) += (-?\d+).*", rest)
        if found:
            yield found[1], found[2], int(found[3])


def states(disk, trace):
    """Each state that the folder may have behind a power cut, and what it is: those of one content once."""
    seen = set()
    for number, (name, words, result) in enumerate(calls(trace)):
        if result < 0 or not disk.call(name, words, result):
            continue
        for what, *losses in LOSSES:
            state = disk.state(*losses)
            digest = hashlib.sha256(repr([(path, data) for path, (_, data) in state.items()]).encode()).hexdigest()
            if digest not in seen:
                seen.add(digest)
                yield f"behind call {number}, {name}, without {what}", state


def lay(state, inodes):
    """The state, in its folder. Notes say the inodes of now, of files that had these of before."""
    for path, (_, data) in state.items():
        Path(path).mkdir() if data is None else Path(path).write_bytes(data)
    now = {was: identity(path) for path, (file, _) in state.items() for was, other in inodes.items() if file is other}
    for path, (_, data) in state.items():
        if data is not None and path.endswith((".archive", "-pair")):
            text = data.decode()
            for was, new in now.items():
                text = text.replace(was, new)
            Path(path).write_text(text)
