r"""Plays scenes of a desk over a file, of which each exchange is what is read and what is then written.

| line | what it is |
|---|---|
| `scene NAME` | a new file; what follows is its scene, up to the next such line |
| `scene NAME within N` | the same, with room for N requests |
| `> KIND TEXT` | the desk reads this |
| any others | what it writes then, line by line |
| `closed executed E, groups G, stations S` | what the file then holds |

| kind | how it is read and written |
|---|---|
| `lines` | as the input of `acd lines` |
| `reads` | the same with `--reads` |
| `torn` | as such an input, which fails where it would end |
| `counted` | as such an input, in two readings that `|` parts, and a line of how often it was written |
| `until` | the same with `--end-on-store-fault` |
| `http` | as one exchange |
| `json` | the same; of the reply there are the status and the JSON |
| `#` | not at all: a comment, with no answer |

`<N TEXT>`, once in what is read, means a text that is repeated N times, and names with @ mean other texts (`SIGNS`). `{since N}` is how long it is since a moment.
"""
import contextlib
import fcntl
import itertools
import re
import socket
import sqlite3
import struct
import subprocess
import termios
import time

from trial import Desk, Trial, connected, ran

import tables

SIGNS = {
    "@group": '0 {"requester":"plan","invoke":1,"service":"addGroup","device":"100","name":"Billing","ring":20,"wrap":30}\\n',
    "@station": '0 {"requester":"plan","invoke":2,"service":"addStation","device":"201"}\\n',
    "@call": '10 {"requester":"pbx","invoke":1,"service":"arriveCall","caller":"0301234","called":"100"}\\n',
    "@made": '200 {"invoke":1,"requester":"plan","result":{}}',
    "@placed": '200 {"invoke":2,"requester":"plan","result":{}}',
    "@badMoment": '400 {"error":{"code":30,"member":"moment","name":"malformed"}}',
    "@badRequester": '400 {"error":{"code":30,"member":"requester","name":"malformed"}}',
    "@tooLarge": '413 {"error":{"code":38,"name":"bodyTooLarge"}}',
}
# what comes by lines: a group, a station and a call
COMES = "".join(SIGNS[sign] for sign in ("@group", "@station", "@call")).replace("\\n", "\n")
ADD_GROUP = (b"POST /csta HTTP/1.1\r\nHost: desk\r\nContent-Length: 104\r\n\r\n"
             b'{"requester":"plan","invoke":1,"service":"addGroup","device":"100","name":"Billing","ring":20,"wrap":30}')
ADDED = (b"HTTP/1.1 200 OK\r\nContent-Type: application/json\r\nContent-Length: 43\r\nConnection: close\r\n\r\n"
         b'{"invoke":1,"requester":"plan","result":{}}')
OF_HTTP = ("http", "json")
ESCAPED = re.compile(r"\\(r|n|t|ufeff)")
SIGN = {"r": "\r", "n": "\n", "t": "\t", "ufeff": "\ufeff"}


def text_of(text):
    """The bytes of a text in which these signs are written out."""
    return ESCAPED.sub(lambda found: SIGN[found[1]], text).encode()


def meant(text):
    for sign in SIGNS:
        text = text.replace(sign, SIGNS[sign])
    return text


def given(text):
    """What is read: a text in which something may be repeated."""
    before, found, rest = text.partition("<")
    if found:
        said, _, after = rest.partition(">")
        number, repeated = said.split(" ", 1)
        text = before + repeated * int(number) + after
    return text_of(text)


def read_all(client):
    """What comes until the other side closes, or the connection breaks."""
    got = b""
    with contextlib.suppress(ConnectionError):
        while part := client.recv(65536):
            got += part
    return got


def consumed(client):
    """Waits until the other side has taken all that was sent to its socket."""
    while struct.unpack("i", fcntl.ioctl(client, termios.TIOCOUTQ, bytes(4)))[0]:
        time.sleep(0)


def cut_off(text):
    """An input that fails where it would end: its other end was closed with something unread."""
    there, here = socket.socketpair()
    with there:
        there.sendall(text)
        here.sendall(b"unread")
    return here


def reply_of(said):
    """A reply of this status and JSON."""
    status, body = said.split(": ", 1)
    return f"HTTP/1.1 {status}\r\nContent-Type: application/json\r\nContent-Length: {len(body)}\r\nConnection: close\r\n\r\n{body}".encode()


def exchanges_in(text):
    """The kind, what is read, and what is written, of each exchange."""
    for each in text.removeprefix("> ").split("\n> "):
        if not each.startswith("# "):
            asked, _, wanted = each.partition("\n")
            kind, said = asked.split(" ", 1)
            yield kind, said, wanted


class Scenes(Trial):
    def play(self, script):
        for scene in script.read_text().removeprefix("scene ").split("\n\nscene "):
            head, played = scene.split("\n", 1)
            name, _, room = head.partition(" within ")
            self.play_scene(name, room, *played.removesuffix("\n").rsplit("\nclosed ", 1))

    def play_scene(self, name, room, played, closed):
        file = self.folder / f"{name}.db"
        self.gives(f"{name}: a new file", ["lines", "--file", file], 0, "")
        if room:
            tables.change(file, f"UPDATE meta SET max_requests = {room}")
        for is_http, group in itertools.groupby(exchanges_in(played), lambda each: each[0] in OF_HTTP):
            if is_http:
                self.exchange(name, file, list(group))
            else:
                for kind, said, wanted in group:
                    found = getattr(self, kind)(file, given(meant(said)))
                    self.expect_lines(f"{name}: {said[:90]}", found.split("\n"), [*([meant(wanted)] if wanted else []), ""] if "\n" not in wanted else [*meant(wanted).split("\n"), ""])
        self.expect(f"{name}: at its end", self.held(file), closed)

    def executed(self, file):
        return self.numbers(file)[0]

    def held(self, file):
        return "executed {}, groups {}, stations {}".format(*self.numbers(file))

    def numbers(self, file):
        """How many requests were executed, how many groups there are, and how many stations."""
        with contextlib.closing(sqlite3.connect(file)) as database:
            return database.execute("SELECT last_stamp, (SELECT count(*) FROM acd_groups), (SELECT count(*) FROM stations) FROM meta").fetchone()

    # the kinds of what is read: each returns what was written, and the fault

    def lines(self, file, text, *words):
        done = ran(self.program, "lines", "--file", file, *words, given=text)
        return done.output + done.faults

    def reads(self, file, text):
        return self.lines(file, text, "--reads")

    def torn(self, file, text):
        with cut_off(text) as taken:
            done = subprocess.run([self.program, "lines", "--file", file], stdin=taken, capture_output=True)
        return (done.stdout + done.stderr).decode()

    def counted(self, file, text, *words):
        """By sockets that keep each reading and each writing apart."""
        (ours, theirs), (took, wrote) = (socket.socketpair(type=socket.SOCK_SEQPACKET) for _ in range(2))
        with ours, theirs, took, wrote:
            process = subprocess.Popen([self.program, "lines", "--file", file, *words], stdin=theirs, stdout=wrote)
            wrote.close()
            for each in filter(None, text.split(b"|")):
                ours.sendall(each)
            ours.shutdown(socket.SHUT_WR)
            written = list(iter(lambda: took.recv(1 << 20), b""))
            process.wait()
        return b"".join(written).decode() + f"written {len(written)}\n"

    def until(self, file, text):
        return self.counted(file, text, "--end-on-store-fault")

    def exchange(self, name, file, group):
        """One service for all that come one after the other."""
        path, before = self.folder / "place", int(time.time())
        with Desk(self.program, file, connections=len(group), socket=path) as desk:
            for kind, said, wanted in group:
                with connected(path) as client:
                    client.sendall(given(said))
                    client.shutdown(socket.SHUT_WR)
                    found = read_all(client)
                wanted = reply_of(wanted) if kind == "json" else text_of(wanted)
                begun = re.search(rb"{since (\d+)}", wanted)
                texts = [wanted.replace(begun[0], b"%10d" % (now - int(begun[1]))) for now in range(before, int(time.time()) + 1)] if begun else [wanted]
                self.expect(f"{name}: {said[:90]}", found, found if found in texts else texts[0])
            self.expect(f"{name}: the end of the service", desk.ends(), (0, "", ""))
