"""acdctl prune killed before each call of the system that changes something, and acd prune within it: the file is what it was or pruned, it goes on from the archive that its
note names, it can be copied at any time, and the same command again does the rest. And what is on the disk as the archive gets its name, and its note."""
import re
import shutil
import signal

from ground import Ground, goes_of, without
from trial.files import copied, held, log_of

CALLS = ("mkdir", "rmdir", "unlink", "unlinkat", "rename", "renameat", "renameat2", "link", "chmod", "fchmod", "write", "pwrite64", "ftruncate", "fsync", "fdatasync",
         "flock", "fcntl", "vfork", "clone", "clone3", "fork")
TRACED = ",".join(f"?{name}" for name in CALLS)
PLAN = ['1000 {"requester":"plan","invoke":1,"service":"addGroup","device":"100","name":"Billing","ring":20,"wrap":30}',
        '1000 {"requester":"plan","invoke":2,"service":"addStation","device":"201"}']
ARRIVES = '{moment} {{"requester":"pbx","invoke":{number},"service":"arriveCall","caller":"0301{number}","called":"100"}}'
CALLERS = 1100


def calls(first, last):
    """A caller each minute."""
    return [ARRIVES.format(moment=1000 + 60 * number, number=number) for number in range(first, last)]


class Kills:
    def __init__(self, ground, folder):
        self.ground, self.folder, self.trace = ground, folder, folder / "trace"
        self.first = folder / "first/desk.db"
        self.first.parent.mkdir()
        ground.feed(self.first, PLAN + calls(1, CALLERS - 10))
        # what is in the log alone is in the archive too
        ground.kill_behind(self.first, calls(CALLERS - 10, CALLERS))
        self.rows, self.states = held(self.first), set()
        self.last = self.rows["meta"][0][8]
        self.wanted = without(self.rows, goes_of(self.rows, self.last, keep=1000))
        self.archive = f"desk.db-1970-01-01-{self.last}"

    def made(self):
        """Anew, to the byte."""
        folder = self.folder / "tried"
        shutil.rmtree(folder, ignore_errors=True)
        folder.mkdir()
        return copied(self.first, folder)

    def prune(self, file, *more, wrapped=()):
        return self.ground.prune(file, "--keep", 1000, *more, wrapped=wrapped)

    def strace(self, *more):
        return ["strace", "-qq", "-y", "-o", self.trace, "-e", f"trace={TRACED}", *more]

    def counted(self):
        """How many calls of each kind there are."""
        file = self.made()
        status, printed, faults = self.prune(file, wrapped=self.strace())
        self.ground.expect(f"it goes through: {faults}", (status, held(file) == self.wanted), (0, True))
        text = self.trace.read_text()
        # before it begins there is the same of all scripts
        begins = text[:text.index("/.prune.")].rindex("\n")
        return {name: (len(re.findall(rf"^{name}\(", text[:begins], re.MULTILINE)), len(re.findall(rf"^{name}\(", text, re.MULTILINE))) for name in CALLS}

    def look(self, what, file):
        """Behind a kill, and behind the same command once more."""
        ground, rows, archive = self.ground, held(file), file.with_name(self.archive)
        self.states.add((rows == self.wanted, file.with_name("desk.db.archive").exists()))
        ground.expect(f"{what}: the file is as it was, or pruned", rows == self.wanted or rows == self.rows)
        if file.with_name("desk.db.archive").exists():
            ground.expect(f"{what}: its archive", held(archive) == self.rows)
        ground.expect(f"{what}: pruned with an archive alone", rows == self.rows or archive.exists())
        status, printed, faults = ground.acdctl("copy", "--file", file, "--folder", file.parent / "copies")
        ground.expect(f"{what}: a copy {printed}{faults}", (status, faults), (0, ""))
        shutil.rmtree(file.parent / "copies", ignore_errors=True)
        status, printed, faults = self.prune(file)
        ground.expect(f"{what}, the same again: {printed}{faults}", (status, faults, printed.splitlines()[-1] == "nothing to prune"), (0, "", rows == self.wanted))
        ground.expect(f"{what}, the same again: both", (held(file) == self.wanted, held(archive) == self.rows), (True, True))
        log_of(archive).unlink(missing_ok=True)
        ground.expect(f"{what}, the same again: what lies there", {path.name for path in file.parent.iterdir()} - {"desk.db-wal"}, {"desk.db", "desk.db.archive", self.archive})
        ground.expect(f"{what}: they are sound", ground.audit(file, "--archive", archive)[1], f"sound\nexecuted {self.last}\n")

    def all(self):
        kills = 0
        for name, (begin, end) in self.counted().items():
            for number in range(begin + 1, end + 1):
                file, what = self.made(), f"killed at {name} {number}"
                status, _, _ = self.prune(file, wrapped=self.strace("-e", f"inject={name}:signal=KILL:when={number}"))
                self.ground.expect(f"{what}: it is", status, -signal.SIGKILL)
                self.look(what, file)
                kills += 1
        self.ground.expect("behind some kills it is pruned, behind others it has an archive or none", self.states, {(False, False), (False, True), (True, True)})
        return kills

    def program(self, call, number):
        """One that is killed as it prunes the file itself, before this call of it."""
        made = self.folder / "killed/acd"
        made.parent.mkdir(exist_ok=True)
        traced = f"strace -qq -o {self.trace} -e trace={call} -e inject={call}:signal=KILL:when={number}"
        made.write_text(f'#!/bin/sh\ncase "$*" in prune*tried/.prune*) ;; prune*) exec {traced} {self.ground.program} "$@" ;; esac\nexec {self.ground.program} "$@"\n')
        made.chmod(0o755)
        return made

    def within(self):
        """The program that prunes is killed; how often."""
        kills = 0
        for call in ("pwrite64", "fsync", "fdatasync", "ftruncate"):
            for number in (1, 2, 3, 5, 10, 40, 160):
                file, what = self.made(), f"acd prune killed at {call} {number}"
                status, _, faults = self.prune(file, "--desk", self.program(call, number))
                if status == 0:
                    break
                self.ground.expect(f"{what}: {faults}", (status, "acd prune was ended by signal 9" in faults), (1, True))
                self.look(what, file)
                kills += 1
        self.ground.expect("it is killed", kills > 5)
        return kills

    def power(self):
        """What a power cut leaves: the archive is on the disk before it gets its name, the name before the note, and that before the program prunes the file."""
        file = self.made()
        note, unsynced, order = f"{file}.archive", set(), []
        self.prune(file, wrapped=["strace", "-f", "-qq", "-y", "-s", "999", "-o", self.trace, "-e", "trace=?write,?pwrite64,?copy_file_range,?sendfile,?ftruncate,?fsync,?fdatasync,"
                                  "?rename,?link,?execve"])
        for name, path, line in re.findall(r"^\d+ +(\w+)\((?:\d+<([^>]*)>|)(.*)", self.trace.read_text(), re.MULTILINE):
            if name in ("write", "pwrite64", "ftruncate", "sendfile"):
                unsynced.add(path)
            elif name == "copy_file_range":
                unsynced.add(re.findall(r"<([^>]*)>", line)[-1])
            elif name in ("fsync", "fdatasync"):
                unsynced.discard(path)
                order += ["synced"] if path == str(file.parent) else []
            elif name == "rename":
                old, new = re.findall(r'"([^"]*)"', line)
                unsynced |= {new} if old in unsynced else set()
                order += ["note"] if new == note else []
                self.ground.expect("the note is on the disk before it gets its name", new == note and new in unsynced, False)
            elif name == "link":
                self.ground.expect("the archive is on the disk before it gets its name", [one for one in unsynced if "/.prune." in one and one.endswith("desk.db")], [])
                order.append("archive")
            elif name == "execve" and '"prune"' in line and f'"{file}"' in line:
                order.append("prunes")
        self.ground.expect(f"and so on: {order}", "archive synced note synced prunes" in " ".join(order), True)


class OfKills(Ground):
    def try_kills(self):
        with self.scratch() as folder:
            kills = Kills(self, folder)
            kills.power()
            print(f"{kills.within()} kills within acd prune", flush=True)
            print(f"{kills.all()} kills", flush=True)
