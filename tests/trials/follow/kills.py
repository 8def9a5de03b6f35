"""acd-follow and the copy's desk are killed before each call of the system that sends or writes, as strace counts them: the copy then has a beginning of
what the desk has, and the same command again ends it. The copy's desk is started twice where there is no file yet, and killed the first time or the second."""
import re
import signal

from ground import PYTHON, Ground, Served, day

# what each of the two is killed at
SCRIPT = ("write", "sendto", "connect", "vfork", "clone", "clone3", "link", "linkat", "unlink")
DESK = ("write", "pwrite64", "pwritev", "fsync", "fdatasync", "ftruncate", "unlink", "openat", "fcntl")
# strace runs the copy's desk the first time alone: behind the kill it is opened again
WRAPPED = """#!/bin/sh
[ -e {note} ] && exec {program} "$@"
: >{note}
exec {strace} {program} "$@"
"""


class Kills(Ground):
    def setUp(self):
        self.desk = Served(self, self.folder / "desk.db")
        self.feed(self.desk.file, day(3, 12))
        self.desk.start()
        self.trace, self.beginnings = self.folder / "trace", set()

    def strace(self, names, *more):
        return ["strace", "-qq", "-o", self.trace, "-e", "trace=" + ",".join(f"?{name}" for name in names), *more]

    def words(self, file, *more):
        return [PYTHON, self.scripts / "acd-follow", self.desk.address, "--file", file, "--once", *more]

    def counted(self, names, *words):
        """How many calls of each kind there are."""
        status, _, told = self.ran(*words)
        self.expect(f"it goes through: {told}", status, 0)
        return {name: len(re.findall(rf"^{name}\(", self.trace.read_text(), re.MULTILINE)) for name in names}

    def wrapped(self, file, strace):
        """A program for the copy's desk, which strace runs the first time."""
        made = self.folder / "wrapped"
        made.write_text(WRAPPED.format(note=f"{file}.note", program=self.program, strace=" ".join(map(str, strace))))
        made.chmod(0o755)
        return "--desk", made

    def again(self, what, file):
        status, said, told = self.ran(*self.words(file))
        self.expect(f"{what}, the same again: {told}", status, 0)
        self.judge(f"{what}, the same again", file, self.desk)
        self.expect(f"{what}, the same again: what else lies there", [*file.parent.glob(f".{file.name}*")], [])

    def of_the_script(self, every):
        counts = self.counted(SCRIPT, *self.strace(SCRIPT), *self.words(self.new_file()))
        for name, number in [(name, number) for name in SCRIPT for number in range(1, counts[name] + 1, every)]:
            file, what = self.new_file(), f"killed at {name} {number}"
            status, _, _ = self.ran(*self.strace(SCRIPT, "-e", f"inject={name}:signal=KILL:when={number}"), *self.words(file))
            self.expect(f"{what}: it is", status, -signal.SIGKILL)
            if file.exists():
                self.beginnings.add(self.judge(what, file, self.desk, is_whole=False))
            self.again(what, file)
        return counts

    def of_its_desk(self, every, is_there):
        """As it makes the file; or over one that is there, with no request in it."""
        def file_for():
            file = self.new_file()
            if is_there:
                self.feed(file, [])
            return file

        file, over = file_for(), "over a file" if is_there else "without one"
        counts = self.counted(DESK, *self.words(file, *self.wrapped(file, self.strace(DESK))))
        for name, number in [(name, number) for name in DESK for number in range(1, counts[name] + 1, every)]:
            file, what = file_for(), f"its desk {over} killed at {name} {number}"
            strace = ["strace", "-qq", "-o", "/dev/null", "-e", f"trace={name}", "-e", f"inject={name}:signal=KILL:when={number}"]
            status, said, told = self.ran(*self.words(file, *self.wrapped(file, strace)))
            # as it opens the file it is a fault, and then the same command again ends it
            self.expect(f"{what}: it goes on, or says that it can't be opened: {told}", status == 0 or "can't be opened" in told)
            self.again(what, file)
        return counts

    def try_kills(self):
        every = self.options.every
        counts = self.of_the_script(every), self.of_its_desk(every, False), self.of_its_desk(every, True)
        self.expect(f"what is there behind some kills, {self.beginnings}", len(self.beginnings) > 2)
        script, first, second = (sum(count.values()) for count in counts)
        print(f"    killed at each {every}. of {script} calls of the script, {first} of its desk as it makes the file, {second} as it is fed", flush=True)
