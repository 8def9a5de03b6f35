"""The program as it is started: a command that ends by itself, a desk over lines, and a desk that serves."""
import contextlib
import os
import pty
import resource
import signal
import subprocess
import tempfile
import threading
import time
from pathlib import Path
from typing import NamedTuple

from .connections import Connection, free_port, until_listening
from .requests import compact


LONGEST = 900   # seconds that a command may take: a busy machine gives little to one that is nice, and one that hangs is ended


class Done(NamedTuple):
    """How a program ended. One that was ended since it went on for too long has no status."""
    status: int
    output: str
    faults: str


def ran(*words, given="", seconds=LONGEST, **how):
    """Runs a program that ends by itself; what it is given and prints is UTF-8, and no line's end is changed."""
    try:
        done = subprocess.run([*map(str, words)], input=given if isinstance(given, bytes) else given.encode(), capture_output=True, timeout=seconds, **how)
    except subprocess.TimeoutExpired:
        return Done(None, "", f"it goes on for {seconds} s")
    return Done(done.returncode, done.stdout.decode(), done.stderr.decode())


def limited(room):
    """For a process that may make no file longer than so many bytes. Python ignores the signal of a file that grows too long, and so does the process, whose write then fails."""
    return {"restore_signals": False, "preexec_fn": lambda: resource.setrlimit(resource.RLIMIT_FSIZE, (room, room))} if room is not None else {}


@contextlib.contextmanager
def running(*words, port=None, **how):
    """A process that is ended with the block; before that begins it listens at the port, if there is one."""
    process = subprocess.Popen([*map(str, words)], **how)
    try:
        if port:
            until_listening(port)
        yield process
    finally:
        process.terminate()
        process.wait()


def refusing(folder):
    """Builds tests/trials/refuse.c there: the variables by which a process gets no memory at one of its growths, or at none, which is 0. At its end it says how many there were."""
    library = Path(folder) / "refuse.so"
    subprocess.run(["gcc", "-O2", "-shared", "-fPIC", "-o", library, Path(__file__).resolve().parents[1] / "refuse.c", "-ldl"], check=True)
    return lambda growth: {"LD_PRELOAD": str(library), "REFUSE": str(growth)}


def growths_in(faults):
    """How many growths there were, by what such a process said."""
    return int(faults.rsplit("growths ", 1)[1])


def halted(process):
    """Lets a process go on for a tenth of a second at a time, and halts it for more than one in between."""
    while process.poll() is None:
        time.sleep(0.1)
        process.send_signal(signal.SIGSTOP)
        time.sleep(1.2)
        process.send_signal(signal.SIGCONT)


def at_a_terminal(*words, given="", halts=False):
    """The status, and what a run says on standard error where that is a terminal, without the CR of each line. With `halts` it takes seconds whatever it does."""
    ours, theirs = pty.openpty()
    done = subprocess.Popen([*map(str, words)], stdin=subprocess.PIPE, stdout=subprocess.DEVNULL, stderr=theirs)
    os.close(theirs)
    done.stdin.write(given.encode())
    done.stdin.close()
    if halts:
        threading.Thread(target=halted, args=(done,)).start()
    said = b""
    while True:
        try:
            part = os.read(ours, 65536)
        except OSError:         # the other end is closed
            break
        if not part:
            break
        said += part
    os.close(ours)
    return done.wait(), said.decode().replace("\r\n", "\n")


class Started:
    """A process of the program. Its standard error goes to a file, since it would wait for a pipe that nobody reads."""

    def start(self, *words, room=None, variables=(), **how):
        self.errors = tempfile.TemporaryFile("w+", encoding="utf-8")
        # for writing alone: what a desk has open to read and write is its file and its log, by acd_held.py
        with open(f"/proc/self/fd/{self.errors.fileno()}", "w") as errors:
            self.process = subprocess.Popen([*map(str, words)], stdout=subprocess.PIPE, stderr=errors, encoding="utf-8", env={**os.environ, **dict(variables)}, **limited(room), **how)

    def __enter__(self):
        return self

    def __exit__(self, *_):
        self.kill()

    def said(self):
        """What it has written to standard error so far."""
        self.errors.seek(0)
        return self.errors.read()

    def ends(self, seconds=60):
        """It ends by itself, by what there is, or by the end of its input; what it still prints. One that goes on is killed, which its status says."""
        try:
            output = self.process.communicate(timeout=seconds)[0]
        except subprocess.TimeoutExpired:
            self.process.kill()
            output = self.process.communicate()[0]
        return Done(self.process.returncode, output, self.said())

    def stop(self):
        """By the signal that systemd sends."""
        self.process.terminate()
        return self.ends()

    def kill(self):
        """Like a power cut for the process: it does nothing more. One that has ended stays as it is."""
        if self.process.poll() is None:
            self.process.kill()
        if not self.process.stdout.closed:
            self.process.communicate()


class Lines(Started):
    """`acd lines`, line by line; over a file, if there is one. `words` are further options of it."""

    def __init__(self, program, file=None, words=(), **how):
        self.start(program, "lines", *(["--file", file] if file else []), *words, stdin=subprocess.PIPE, **how)

    def say(self, line):
        """Gives it a line, and returns its answer, with its end: one without is cut."""
        self.process.stdin.write(line.rstrip("\n") + "\n")
        self.process.stdin.flush()
        return self.process.stdout.readline()


class Desk(Started):
    """`acd serve` over a file, without an end or for so many connections, at a port that is free, or at a socket: it says that it listens. `words` are further options of it."""

    def __init__(self, program, file, connections=None, port=None, socket=None, words=(), **how):
        self.port = None if socket else port or free_port()
        self.place = socket or self.port
        self.address = f"unix:{socket}" if socket else f"http://127.0.0.1:{self.port}"
        where = ["--socket", socket] if socket else ["--port", self.port]
        self.start(program, "serve", "--file", file, *where, *(["--connections", connections] if connections else ["--endless"]), *words, **how)
        try:
            self.first_line = self.process.stdout.readline()
            if not self.first_line.startswith("listening on "):
                raise RuntimeError(f"no desk serves {file}: {self.first_line}{self.ends(5).faults}")
        except BaseException:       # a signal too: no block that would end it has begun
            self.kill()
            raise

    def ask(self, method, target, body=None, fields=(), **how):
        """One exchange over a connection of its own."""
        with Connection(self.place) as connection:
            return connection.ask(method, target, body, fields, **how)

    def read(self, target):
        """The value that a read tells."""
        return self.ask("GET", target).value

    def post(self, request):
        """A request, or the bytes of one."""
        return self.ask("POST", "/csta", compact(request) if isinstance(request, dict) else request)
