"""Keeps a copy of a desk that runs elsewhere: asks it for the requests that it has executed, page after page, and feeds
each to a desk of its own over a file.

It feeds the next one once it has compared the copy's reply with the desk's. Each time it asks for the copy's last
request once more: if the desk has another one there, or fewer requests, the two have different histories, and it feeds
nothing more. It is tested, not proved.

Where it is to stand by, a person's order, the signal SIGUSR1, makes of the copy the desk that serves: that desk gets
the line `serve`, and no request after it. By itself it never gives it."""
import argparse
import contextlib
import json
import os
import re
import signal
import subprocess
import time
from collections.abc import Iterator
from pathlib import Path
from typing import NamedTuple, NoReturn

from acd_client import Client, Unanswered
from acd_service import command, pair, put, reach, settings
from acd_service.command import NOTICE, Fault, report, say

# seconds between two looks at a desk that has nothing new; between two attempts; and for how long a file may be open
# elsewhere, as by the desk that a killed one left, and what doesn't answer is asked again where an end is wanted
LOOK, PAUSE, SOON = 0.1, 1, 5
# beside the copy: what it said of it last; it writes this at its end, and so often in seconds
NOTE, NOTED = ".followed", 10
# beyond each stamp
BEYOND = 999_999_999_999_999
# what the desk's program ends with where its file is open elsewhere
OPEN_ELSEWHERE = 4
DIFFERS, LACKS = 3, 4
DECODER = json.JSONDecoder()
# the order to serve
ORDER = signal.SIGUSR1
# there is something in it once a signal came
ending: list[bool] = []


class Again(Exception):
    """The copy's desk gave no answer, or one that says no more than that: it is opened and asked again."""


class Ended(Exception):
    """A signal wants it to end."""


class Ordered(Exception):
    """A person wants the copy to serve."""


def moment_text(moment: float) -> str:
    return time.strftime("%Y-%m-%d %H:%M:%S UTC", time.gmtime(moment))


# A page of requests

class Record(NamedTuple):
    """An executed request as the desk reports it: its numbers, and the texts of request and reply to the byte."""
    stamp: int
    moment: int
    request: str
    status: int
    reply: str

    def text(self) -> str:
        """For people to read; nobody learns by it who the ticks' requester is."""
        shown = re.sub(r'"clock-[a-z]+"', '"clock-.."', f"request {self.request}, answered {self.status} {self.reply}")
        return f"request number {self.stamp}, at {self.moment}: {shown}"


class Page(NamedTuple):
    last: int
    records: list[Record]


def object_at(text: str, at: int) -> tuple[dict[str, str], int]:
    """The members of the object that begins there, each as it is spelt, and where it ends; a desk writes no blanks
    between them."""
    found: dict[str, str] = {}
    between = "{"
    while between != "}":
        if between not in ("{", ",") or text[at] != between:
            raise ValueError("no object")
        name, at = DECODER.raw_decode(text, at + 1)
        if text[at] != ":":
            raise ValueError("no member")
        begin = at + 1
        _, at = DECODER.raw_decode(text, begin)
        found[name], between = text[begin:at], text[at]
    return found, at + 1


def number(text: str) -> int:
    if not re.fullmatch("0|[1-9][0-9]{0,14}", text):
        raise ValueError("no number")
    return int(text)


def records_in(text: str) -> Iterator[Record]:
    """The records of a list."""
    at = 1
    while text != "[]" and at < len(text):
        found, at = object_at(text, at)
        yield Record(number(found["stamp"]), number(found["moment"]), found["request"], number(found["status"]),
                     found["reply"])
        if text[at] != ("," if at + 1 < len(text) else "]"):
            raise ValueError("no list")
        at += 1


def page_of(data: bytes) -> Page:
    """A page, whose texts keep their bytes: each is a character of Latin-1."""
    try:
        members, _ = object_at(data.decode("latin-1"), 0)
        page = Page(number(members["last"]), list(records_in(members["requests"])))
    except (ValueError, LookupError, RecursionError):
        raise Unanswered("the reply is no page of requests") from None
    stamps = [record.stamp for record in page.records]
    if any(stamp >= following for stamp, following in zip(stamps, [*stamps[1:], page.last + 1])):
        raise Unanswered("the page isn't in order")
    return page


# The copy

def note_of(file: Path | str) -> Path:
    return Path(f"{file}{NOTE}")


def remove(file: Path) -> None:
    """It and its log, where they are there."""
    for part in (file, pair.log_of(file)):
        part.unlink(missing_ok=True)


@contextlib.contextmanager
def unordered() -> Iterator[None]:
    """No order comes meanwhile: it waits."""
    before = signal.pthread_sigmask(signal.SIG_BLOCK, {ORDER})
    try:
        yield
    finally:
        signal.pthread_sigmask(signal.SIG_SETMASK, before)


class Copy:
    """A desk's file, kept by the desk's program, which is fed by lines. With the words of a service that desk listens
    from the start, and serves once it is told to."""

    def __init__(self, program: str, file: str, service: list[str] | None = None) -> None:
        self.program, self.file, self.service = program, file, service
        self.serves = False
        self.desk: subprocess.Popen[bytes] | None = None
        # the last request that it has, by number and whole; before it is opened nobody knows
        self.last, self.is_known = 0, False
        self.record: Record | None = None

    def open(self) -> None:
        """Opens the file, and looks what the last request in it is."""
        end = time.monotonic() + SOON
        while True:
            try:
                self.make()
                self.start(self.file)
                return self.look()
            except Again as fault:
                status = self.close()
                # one that was killed as it opened the file is none to give up by
                if status > 0 and status != OPEN_ELSEWHERE or time.monotonic() > end:
                    raise Fault(f"{self.file} can't be opened: {fault}, with status {status}") from None
            time.sleep(PAUSE)

    def make(self) -> None:
        """If there is no file, makes one of a desk without requests, which gets its name once it is whole: a start that
        is killed meanwhile leaves no file that can't be opened."""
        folder, name = os.path.split(self.file)
        new = Path(folder, f".{name}.acd-follow")
        try:
            # what a killed one left
            remove(new)
            if not os.path.lexists(self.file) and not pair.holds_something(pair.log_of(Path(self.file))):
                self.begin(new)
        except OSError as fault:
            raise Fault(f"{self.file} can't be made: {fault.strerror}") from None
        finally:
            with contextlib.suppress(OSError):
                remove(new)

    def begin(self, new: Path) -> None:
        """Nobody else knows the name at which it is made."""
        self.start(new)
        self.page(BEYOND)
        status = self.close()
        if status < 0:
            raise Again("its desk was killed")
        if status:
            raise Fault(f"{self.file} can't be made: its desk ended with status {status}")
        # what somebody else made meanwhile stays
        with contextlib.suppress(FileExistsError):
            os.link(new, self.file)

    def start(self, file: Path | str) -> None:
        words = [self.program, "lines", "--file", file, "--reads"]
        if self.service is not None and file == self.file:
            words = [self.program, "standby", "--file", file, "--endless", *self.service]
        try:
            # a signal of the terminal isn't for it
            self.desk = subprocess.Popen(words, stdin=subprocess.PIPE, stdout=subprocess.PIPE, process_group=0)
        except OSError as fault:
            raise Fault(f"{self.program}: {fault.strerror}") from None

    def look(self) -> None:
        """The requests that it has by its own account."""
        self.last, self.is_known = self.page(BEYOND).last, True
        self.record = next(iter(self.page(self.last - 1).records), None) if self.last else None

    def page(self, after: int) -> Page:
        status, body = self.answer(f"0 GET /requests?after={after}")
        if status != 200:
            raise Fault(f"{self.program} tells no requests, so no copy can be kept by it: it is of an older version")
        try:
            return page_of(body)
        except Unanswered as fault:
            raise Fault(f"{self.file} isn't a copy of a desk: {fault}") from None

    def answer(self, line: str) -> tuple[int, bytes]:
        """The status and the body of the answer to a line."""
        assert self.desk and self.desk.stdin and self.desk.stdout
        try:
            with unordered():
                self.desk.stdin.write(f"{line}\n".encode("latin-1"))
                self.desk.stdin.flush()
                status, _, body = self.desk.stdout.readline().partition(b" ")
        except OSError as fault:
            raise Again(f"its desk doesn't answer: {fault.strerror}") from None
        if not body.endswith(b"\n"):
            raise Again("its desk ended")
        if status == b"503":
            raise Again(f"its desk answered 503 {body.decode('latin-1').strip()}")
        return int(status), body[:-1]

    def fed(self, record: Record) -> Record:
        """Feeds a request; it, with the answer that it gets here."""
        status, body = self.answer(f"{record.moment} {record.request}")
        answer = record._replace(status=status, reply=body.decode("latin-1"))
        if answer == record:
            self.last, self.record = record.stamp, record
        else:
            self.look()
        return answer

    def serve(self) -> str:
        """Has its desk serve; the line that it says then."""
        assert self.desk and self.desk.stdin and self.desk.stdout
        self.serves = True
        with contextlib.suppress(OSError):
            self.desk.stdin.write(b"serve\n")
            self.desk.stdin.flush()
        line = self.desk.stdout.readline().decode("latin-1")
        if not line.endswith("\n"):
            raise Fault(f"{self.file} doesn't serve: its desk ended with status {self.desk.wait()}")
        return line.strip()

    def close(self) -> int:
        """Has its desk end, and close the file; the status that it ends with."""
        if self.desk is None:
            return 0
        desk, self.desk = self.desk, None
        assert desk.stdin and desk.stdout
        is_up = desk.poll() is None
        if self.serves:
            desk.terminate()
        # where it has ended by itself there is a line left that nobody read
        with contextlib.suppress(OSError):
            desk.stdin.close()
        status = desk.wait()
        desk.stdout.close()
        # one that stands by, and has its input closed, says that it wasn't told to serve
        return 0 if is_up and self.service is not None else status


@contextlib.contextmanager
def undisturbed() -> Iterator[None]:
    """No signal ends it meanwhile."""
    signal.pthread_sigmask(signal.SIG_BLOCK, command.ENDING)
    try:
        yield
    finally:
        signal.pthread_sigmask(signal.SIG_UNBLOCK, command.ENDING)


# The follower

class Trouble:
    """A fault that keeps it from going on: it reports the fault once, and waits for its end for ever, or for some
    seconds only."""

    def __init__(self, is_brief: bool) -> None:
        self.is_brief = is_brief
        self.since: float | None = None

    def wait(self, text: str) -> None:
        if self.since is None:
            self.since = time.monotonic()
            report(text)
        elif self.is_brief and time.monotonic() > self.since + SOON:
            raise Fault(text)
        time.sleep(PAUSE)

    def is_over(self, text: str) -> None:
        if self.since is not None:
            self.since = None
            report(text, NOTICE)


class Follower:
    def __init__(self, desk: Client, copy: Copy, once: bool) -> None:
        self.desk, self.copy, self.once = desk, copy, once
        self.silence, self.failure = Trouble(once), Trouble(once)
        # the last request that the desk reported, and when
        self.reported: int | None = None
        self.when = 0.0
        self.has_caught_up, self.noted = False, float(-NOTED)

    def state(self) -> str:
        """The last requests of the copy, and of the desk by its last report."""
        reported = ("the desk hasn't answered yet" if self.reported is None
                    else f"the last that the desk told of is {self.reported}, at {moment_text(self.when)}")
        return f"{self.copy.file} has the requests up to {self.copy.last}; {reported}"

    def note(self) -> None:
        """Writes the same beside the copy, for --last; a disk without room for it is the copy's own trouble."""
        self.noted = time.monotonic()
        with contextlib.suppress(OSError):
            put.put(note_of(self.copy.file), f"{self.state()}\n")

    def asked(self) -> tuple[Page, float]:
        """The page after the copy's last request but one, and how many seconds it took."""
        begin = time.monotonic()
        status, data = self.desk.exchange("GET", f"/requests?after={max(self.copy.last - 1, 0)}")
        if status != 200:
            name = re.search(rb'"name":"([A-Za-z]{1,40})"', data)
            raise Fault(f"the desk answered {status}{f' {name[1].decode()}' if name else ''}: it tells no requests, "
                        "or not to this login")
        page = page_of(data)
        self.reported, self.when = page.last, time.time()
        return page, time.monotonic() - begin

    def insisted(self) -> tuple[Page, float]:
        """The same, until there is one."""
        while True:
            try:
                found = self.asked()
            except Unanswered as fault:
                self.has_caught_up = False
                self.silence.wait(f"no answer ({fault.__cause__ or fault}), retrying. {self.state()}")
            else:
                self.silence.is_over("the desk answers again")
                return found

    def compare(self, page: Page) -> None:
        """Refuses a copy that isn't a beginning of the desk's requests."""
        copy = self.copy
        if page.last < copy.last:
            raise Fault(f"the desk has the requests up to {page.last}, and {copy.file} those up to {copy.last}: "
                        "it isn't the desk that was followed, or an older copy was put back there. Nothing was fed",
                        status=DIFFERS)
        needed, first = max(copy.last, 1), page.records[0].stamp if page.records else None
        if copy.last and first == copy.last + 1:
            # a cut has just left the copy's last request behind: what follows it is there, and is compared
            return say(f"the desk's archive alone has request {copy.last}, the last of {copy.file}: it isn't compared")
        if page.last >= needed and (first is None or first > needed):
            raise Fault(f"request {needed} is needed of the desk, "
                        f"and {f'the first that it has is {first}' if first else 'it has none from there on'}: "
                        f"{copy.file} has to be made of the desk's archive. Nothing was fed", status=LACKS)
        if copy.last and page.records[0] != copy.record:
            raise Fault(f"{copy.file} has another request {copy.last} than the desk: it isn't its copy, "
                        "and nothing was fed", *self.both(page.records[0], copy.record), status=DIFFERS)

    def both(self, of_desk: Record, of_copy: Record | None) -> tuple[str, str]:
        return f"the desk: {of_desk.text()}", f"{self.copy.file}: {of_copy.text() if of_copy else 'none'}"

    def take(self, page: Page) -> None:
        """Feeds what is new in a page."""
        for record in page.records:
            before = self.copy.record
            if record == before:
                continue
            if record.stamp != self.copy.last + 1:
                raise Fault(f"request {self.copy.last + 1} is needed of the desk, and isn't among those that it tells",
                            status=LACKS)
            if before and record.moment < before.moment:
                raise Fault("the desk tells a request whose moment is before that of the one before it",
                            *self.both(record, before), status=DIFFERS)
            with undisturbed():
                self.feed(record)

    def feed(self, record: Record) -> None:
        """Feeds one request; the copy's answer has to be the one that the desk reported."""
        answer = self.copy.fed(record)
        if answer != record:
            raise Fault(f"{self.copy.file} answers a request otherwise than the desk did, "
                        "and isn't its copy", *self.both(record, answer), status=DIFFERS)

    def round(self) -> float | None:
        """Asks once, and feeds what there is; how many seconds to wait before the next time, nothing where it has
        caught up and is to end."""
        page, took = self.insisted()
        self.compare(page)
        if page.records and page.records[-1].stamp > self.copy.last:
            self.take(page)
            fed = self.copy.last
            self.copy.look()
            if self.copy.last != fed:
                raise Fault(f"{self.copy.file} has the requests up to {self.copy.last}, where it was fed up to {fed}: "
                            "the desk told one of them twice", status=DIFFERS)
        if self.copy.last < page.last:
            # the desk has as long for others as it had for this
            return took
        if not self.has_caught_up:
            self.has_caught_up = True
            say(f"caught up at {self.copy.last}")
        if time.monotonic() > self.noted + NOTED:
            self.note()
        return None if self.once else LOOK

    def follow(self) -> None:
        """Until it has caught up, or without an end."""
        self.copy.open()
        rest: float | None = 0
        while rest is not None:
            time.sleep(rest)
            try:
                rest = self.round()
                self.failure.is_over(f"{self.copy.file}: its desk answers again")
            except Again as fault:
                self.has_caught_up = False
                self.failure.wait(f"{self.copy.file}: {fault}; it is opened and asked again")
                self.copy.close()
                self.copy.open()


# The command

def parser() -> command.Parser:
    found = command.Parser("Keeps a copy of a desk that runs elsewhere, by the requests that it has executed.",
                           printed_usage=True)
    found.add_argument("address", nargs="?", type=reach.address, metavar="URL",
                       help="the desk's address, as http://127.0.0.1:8080 or https://desk.example:8443")
    found.add_argument("--file", metavar="G", help="the file of the copy, which is made if it isn't there; "
                                                   "with --last that of ACD_FILE unless given")
    found.add_argument("--once", action="store_true", help="end as soon as the copy has all that the desk told")
    found.add_argument("--last", action="store_true",
                       help="print what was last said of the copy, and end; it takes no URL")
    found.add_argument("--port", type=int, metavar="P",
                       help="stand by: the port at which the copy's desk listens, and serves once SIGUSR1 says so")
    found.add_argument("--socket", metavar="PATH", help="the same at a Unix socket")
    found.add_argument("--tick", type=int, metavar="SECONDS", help="how often that desk ticks then")
    found.add_argument("--patience", type=int, metavar="SECONDS", help="how long it waits for a client then")
    found.add_argument("--desk", default="acd", metavar="PROGRAM",
                       help="the desk's program that keeps the copy; acd unless given")
    reach.add_login_options(found)
    return found


def read(words: list[str]) -> argparse.Namespace:
    found = parser()
    options = found.parse_args(words)
    if options.last and options.address:
        found.error("--last asks no desk: it takes no URL")
    if not options.last:
        if not options.address or not options.file:
            found.error("URL and --file have to be given, or --last")
        if service_of(options) and (options.port is None) == (options.socket is None):
            found.error("to stand by takes either --port or --socket")
        reach.check(found, options)
    return options


def last(file: str) -> None:
    """Prints what it said of the copy as it ended, or some seconds ago."""
    try:
        say(note_of(file).read_text().strip())
    except OSError as fault:
        raise Fault(f"{note_of(file)}: {fault.strerror}: acdctl follow hasn't caught up yet there") from None


def end(*_: object) -> None:
    """The first signal ends it, and a second one doesn't disturb that."""
    if not ending:
        ending.append(True)
        raise Ended


def order(*_: object) -> None:
    """The first order alone counts."""
    signal.signal(ORDER, signal.SIG_IGN)
    raise Ordered


def service_of(options: argparse.Namespace) -> list[str] | None:
    """The words of the service that the copy's desk is to be, where it is to stand by."""
    given = [("--port", options.port), ("--socket", options.socket), ("--tick", options.tick),
             ("--patience", options.patience)]
    words = [word for name, value in given if value is not None for word in (name, str(value))]
    return words or None


def serve(copy: Copy) -> int:
    """Has the copy's desk serve, until it ends or a signal does; the status."""
    if not copy.is_known or copy.desk is None:
        copy.close()
        copy.open()
    say(f"{copy.file} serves from request {copy.last} on: {copy.serve()}")
    assert copy.desk
    status = copy.desk.wait()
    raise Fault(f"{copy.file} serves no more: its desk ended with status {status}")


def followed(follower: Follower) -> int:
    """Follows until it is ended, has caught up where that is wanted, or is ordered to serve, and then serves."""
    try:
        follower.follow()
    except Ordered:
        return serve(follower.copy)
    return 0


def follow(options: argparse.Namespace) -> int:
    """The same, until a signal ends it; the status."""
    os.umask(0o077)
    for one in command.ENDING:
        signal.signal(one, end)
    service = service_of(options)
    copy, status = Copy(options.desk, options.file, service), 0
    follower: Follower | None = None
    try:
        follower = Follower(reach.desk_at(options), copy, options.once)
        if service:
            signal.signal(ORDER, order)
        status = followed(follower)
    except Ended:
        pass
    except Fault as fault:
        for text in fault.args:
            report(text, command.ERROR)
        status = fault.status
    signal.pthread_sigmask(signal.SIG_BLOCK, command.ENDING)
    copy.close()
    if follower and copy.is_known:
        follower.note()
        say(follower.state())
    return status


def do(options: argparse.Namespace) -> int:
    if not options.last:
        return follow(options)
    last(options.file or settings.desk_file())
    return 0


def main(words: list[str]) -> NoReturn:
    command.run(read, do, words)
