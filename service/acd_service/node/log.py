"""The log: one key of etcd, put again and again, over etcd's HTTP gateway. Its revisions are the entries."""
import base64
import itertools
import json
import random
import re
import ssl
import threading
import time
from collections.abc import Iterator
from typing import Any, NamedTuple

from acd_service.node.gateway import Connection
from acd_service.node.journal import Journal

End = tuple[str, str]                                      # the host and the port of a member of etcd
Record = dict[str, Any]                                    # an object of JSON, as etcd's gateway has it


class Member(NamedTuple):
    """The state of a member of etcd: the bytes of its file, those in use, and its quota; and whether it leads."""
    end: End
    size: int
    used: int
    quota: int
    leads: bool = False


class Published(NamedTuple):
    """The place that a machine published, and the revision by which it did."""
    revision: int
    place: int


QUOTA = 2 * 2 ** 30                                        # etcd's default, if a member doesn't show its quota
# etcd's codes: a revision that was compacted, or is yet to come; and what a user has no right to. Another member says
# the same.
NO_SUCH_REVISION, PERMISSION_DENIED = 11, 7


class Forgotten(Exception):
    """The log doesn't have the entries after this machine's place."""


class Compacted(OSError):
    """A member says that its log begins after the revision at which a watch was to begin. It doesn't say whether
    entries are lost by that."""

    def __init__(self, revision: int) -> None:
        super().__init__(f"it was compacted up to {revision} just now")
        self.revision = revision


class Refused(OSError):
    """A member refuses to do this."""

    def __init__(self, text: str, code: int | None) -> None:
        super().__init__(text)
        self.code = code


def wants_token(text: str, token: str | None) -> bool:
    """Whether a member says so that it no longer knows this token: it ends after five minutes without use, and with
    each start of a member. Without one etcd's gateway says at times that its own certificate, which has no CN, has no
    right."""
    return "user name is empty" in text or "invalid auth token" in text or token is None and "permission denied" in text


def text(data: bytes) -> str:
    return base64.b64encode(data).decode()


def data_of(record: Record, name: str) -> bytes:
    """The bytes of a member of a record; etcd leaves an empty member out."""
    return base64.b64decode(record.get(name, ""))


def after_all(front: bytes) -> bytes:
    """The key after all keys that begin so."""
    return front[:-1] + bytes([front[-1] + 1])


def said(status: int, body: bytes) -> Record:
    """The answer of a member, as JSON. A fault of etcd is an OSError: another member may do better, or this one
    later."""
    if status != 200:
        try:
            fault = json.loads(body)
        except ValueError:
            raise OSError(f"status {status} {body[:100]!r}") from None
        raise Refused(str(fault.get("message") or fault.get("error")), fault.get("code"))
    found: Record = json.loads(body)
    return found


def events(line: bytes, key: bytes, place: int, version: int) -> Iterator[tuple[int, int, bytes | None]]:
    """The entries of one line of a watch after a place, each with its revision and how often the key had been put by
    then. It passes over entries that came before. Changes of other keys after them come as their last revision, without
    an entry: up to there all entries were told."""
    if not line.endswith(b"\n"):
        raise OSError("a member broke off within a line")
    result = json.loads(line).get("result")
    if result is None:
        raise OSError(f"a member told no result: {line[:200]!r}")
    if int(result.get("compact_revision", 0)):
        raise Compacted(int(result["compact_revision"]))
    if result.get("canceled"):
        raise OSError(f"a member ended the watch: {result.get('cancel_reason')}")
    last = place
    for event in result.get("events", []):
        kv, deleted = event["kv"], event.get("type") == "DELETE"
        revision = int(kv["mod_revision"])
        last = max(last, revision)
        if revision <= place or data_of(kv, "key") != key:
            continue
        if not deleted and int(kv["version"]) != version + 1:
            raise OSError(f"a member told the entry at {revision} before one that comes first")
        place, version = revision, 0 if deleted else version + 1
        yield place, version, data_of(kv, "value")
    if last > place and not result.get("fragment"):        # a part of a line may end within the changes of one revision
        yield last, version, None


class Log:
    """`user` is a user of etcd and the file of its password, or None."""

    def __init__(self, ends: list[str], line: bytes, context: ssl.SSLContext | None, journal: Journal,
                 user: tuple[str, str] | None = None, patience: float = 1.5, silence: float = 5) -> None:
        self.ends: list[End] = [(host, port) for host, _, port in (end.rpartition(":") for end in ends)]
        self.line, self.context, self.journal = line, context, journal
        self.patience, self.silence = patience, silence    # seconds: for an answer, and for a silent watch
        self.idle: list[Connection] = []
        self.token: str | None = None
        self.at, self.lock = random.randrange(len(self.ends)), threading.Lock()
        self.user, self.renewing = user, threading.Lock()

    # One call

    def connect(self, end: End, wait: float) -> Connection:
        host, port = end
        return Connection(host, int(port), wait, self.context)

    def taken(self) -> tuple[End, Connection]:
        """A kept connection, or a new one to the member whose turn it is."""
        with self.lock:
            end = self.ends[self.at % len(self.ends)]
            return (end, self.idle.pop()) if self.idle else (end, self.connect(end, self.patience))

    def leave(self, end: End) -> None:
        """This member doesn't answer: the next one, and none of the connections to this one again."""
        with self.lock:
            if self.ends[self.at % len(self.ends)] == end:
                self.turn_to(self.at + 1)

    def prefer(self, end: End) -> None:
        """Calls go to this member from now on."""
        with self.lock:
            if self.ends[self.at % len(self.ends)] != end:
                self.turn_to(self.ends.index(end))

    def turn_to(self, at: int) -> None:
        self.at = at
        for connection in self.idle:
            connection.close()
        self.idle.clear()

    def keep(self, end: End, connection: Connection) -> None:
        with self.lock:
            if self.ends[self.at % len(self.ends)] == end and len(self.idle) < 16:
                return self.idle.append(connection)
        connection.close()

    def call(self, path: str, body: Record) -> Record:
        """One POST to the members in turn, until one of them does it."""
        fault: Exception | None = None
        for _ in range(len(self.ends) + 1):
            end, connection = self.taken()
            try:
                found = self.exchange(connection, path, body)
            except OSError as error:
                connection.close()
                if isinstance(error, Refused) and error.code in (NO_SUCH_REVISION, PERMISSION_DENIED):
                    raise
                self.leave(end)
                fault = error
                continue
            self.keep(end, connection)
            return found
        raise OSError(f"no member of etcd acknowledged: {fault}")

    def ask(self, end: End, path: str, body: Record, wait: float | None = None) -> Record:
        """One POST to this very member."""
        connection = self.connect(end, wait or self.patience)
        try:
            return self.exchange(connection, path, body)
        finally:
            connection.close()

    def exchange(self, connection: Connection, path: str, body: Record) -> Record:
        """One POST; and once more with a new token where the member wants one."""
        token = self.token
        try:
            return self.post(connection, path, body, token)
        except Refused as fault:
            if not self.user or not wants_token(str(fault), token):
                raise
        return self.post(connection, path, body, self.renewed(connection, token))

    def post(self, connection: Connection, path: str, body: Record, token: str | None) -> Record:
        answer = connection.ask("POST", path, json.dumps(body).encode(), token)
        return said(answer.status, answer.body.read())

    def renewed(self, connection: Connection, stale: str | None) -> str | None:
        """A token in place of this one; another thread may have asked for it meanwhile. The password is read each time,
        so that a new one needs no start."""
        with self.renewing:
            if self.user and self.token == stale:
                name, file = self.user
                with open(file) as words:
                    self.token = self.post(connection, "/v3/auth/authenticate",
                                           {"name": name, "password": words.read().strip()}, None)["token"]
            return self.token

    def forget_token(self, stale: str | None) -> None:
        with self.renewing:
            if self.token == stale:
                self.token = None

    # The entries

    def append(self, data: bytes) -> None:
        """Returns once a majority has it on disk. After a fault it is unknown whether the log has it, once, twice or
        not at all."""
        self.call("/v3/kv/put", {"key": text(self.line), "value": text(data)})

    def last(self) -> tuple[int, list[Record]]:
        """The log's last revision, by whichever put, and the record of the last entry, if any."""
        found = self.call("/v3/kv/range", {"key": text(self.line)})
        return int(found["header"]["revision"]), found.get("kvs", [])

    def begin(self, place: int, seen: int = 0) -> tuple[int, int]:
        """The revision from which on the entries after a place are, and how often the key had been put by then,
        confirmed by a majority. Up to `seen` there are none. Raises Forgotten if no log has them."""
        last, found = self.last()
        if last < max(place, seen):
            raise Forgotten(f"the log ends at {last}, before this machine's place {max(place, seen)}: "
                            "it isn't the log that this folder was fed from")
        # no entry came since, so the log may be compacted up to its end
        if found and int(found[0]["mod_revision"]) == place:
            return last + 1, int(found[0]["version"])
        known = max(place, seen) or 1                      # etcd's first revision, before the first put
        kvs = self.entry_up_to(known)
        # compacted further: perhaps up to places that the machines published while nobody called
        if kvs is None:
            known = self.compaction_after(known)
            kvs = self.entry_up_to(known)
            if kvs is None:
                raise Compacted(known)                     # and further meanwhile
            if not kvs or int(kvs[0]["mod_revision"]) != place:
                raise Forgotten(f"the log begins after this machine's place {place}: "
                                "copy the folder of another machine")
        if kvs and int(kvs[0]["mod_revision"]) != place:
            raise Forgotten(f"the log has no entry at this machine's place {place}: "
                            "it isn't the log that this folder was fed from")
        return known + 1, int(kvs[0]["version"]) if kvs else 0

    def entry_up_to(self, revision: int) -> list[Record] | None:
        """The record of the last entry up to a revision, if any, in a list; None if the log no longer knows that
        revision."""
        try:
            found: list[Record] = self.call("/v3/kv/range",
                                            {"key": text(self.line), "revision": str(revision)}).get("kvs", [])
            return found
        except Refused as fault:
            if fault.code != NO_SUCH_REVISION:
                raise
            return None

    def compaction_after(self, revision: int) -> int:
        """The revision up to which the log is compacted, if it no longer knows this one. Only a watch shows it."""
        try:
            next(self.watched(self.ends[self.at % len(self.ends)], revision, revision, 0), None)
        except Compacted as fault:
            return fault.revision
        raise OSError(f"a member doesn't say up to where it is compacted, which no longer knows {revision}")

    def watched(self, end: End, start: int, place: int, version: int) -> Iterator[tuple[int, bytes | None]]:
        """The entries from a revision on, as one member reports them, until it breaks off; and revisions without an
        entry, up to which it has told all. Without fragments a line might be as long as all that the log has."""
        connection, token = self.connect(end, self.silence), self.token
        # the log's key, and those below it
        request = {"key": text(self.line), "range_end": text(self.line + b"0"), "start_revision": str(start),
                   "fragment": True}
        try:
            answer = connection.ask("POST", "/v3/watch", json.dumps({"create_request": request}).encode(), token)
            if answer.status != 200:
                said(answer.status, answer.body.read())
            while line := answer.body.readline():
                for revision, version, entry in events(line, self.line, place, version):
                    place = place if entry is None else revision
                    yield revision, entry
        except OSError as fault:
            if wants_token(str(fault), token):
                self.forget_token(token)
            raise
        finally:
            connection.close()

    def follow(self, place: int, seen: int = 0) -> Iterator[tuple[int, bytes | None]]:
        """The entries after a place, in order, for ever, each with its place; and revisions without an entry (None), up
        to which there is no other. It waits out faults of members. Raises Forgotten if the log no longer has the
        entries."""
        for end in itertools.cycle(random.sample(self.ends, len(self.ends))):
            try:
                start, version = self.begin(place, seen)
                for revision, entry in self.watched(end, start, place, version):
                    place, seen = (place, revision) if entry is None else (revision, seen)
                    yield revision, entry
            except TimeoutError:                           # nothing came
                pass
            except OSError as fault:
                self.journal.report(f"the log is away: {fault}", "follow", 60)
            time.sleep(0.1)                                # the next member, from here

    # Values that machines publish for one another

    def listed(self, kind: bytes, keys_only: bool = False) -> dict[bytes, Record]:
        """The keys of a kind, without their common front, each with its record."""
        front = self.line + b"/" + kind + b"/"
        found = self.call("/v3/kv/range",
                          {"key": text(front), "range_end": text(after_all(front)), "keys_only": keys_only})
        return {data_of(kv, "key")[len(front):]: kv for kv in found.get("kvs", [])}

    def publish(self, kind: bytes, name: bytes, value: bytes) -> None:
        self.call("/v3/kv/put", {"key": text(self.line + b"/" + kind + b"/" + name), "value": text(value)})

    def publish_digest(self, count: int, name: bytes, digest: bytes) -> None:
        """Puts a machine's digest after so many entries."""
        self.publish(b"digest", b"%s/%d" % (name, count), digest)

    def digests(self, count: int, names: list[bytes]) -> dict[bytes, bytes]:
        """Those of these machines after so many entries, by the machine's name. Where one has none below its name it
        may be as versions before 1.15 put it."""
        keys = [b"/digest/%s/%d" % (name, count) for name in names]
        keys += [b"/digest/%d/%s" % (count, name) for name in names]
        ranges = [{"request_range": {"key": text(self.line + key)}} for key in keys]
        answers = self.call("/v3/kv/txn", {"success": ranges})["responses"]
        found = [answer["response_range"].get("kvs") for answer in answers]
        return {name: data_of(kvs[0], "value") for name, kvs in reversed(list(zip([*names, *names], found))) if kvs}

    def forget_digests(self, count: int, name: bytes) -> None:
        """Deletes a machine's digests of fewer entries."""
        for number in self.listed(b"digest/" + name, keys_only=True):
            if number.isdigit() and int(number) < count:
                self.call("/v3/kv/deleterange", {"key": text(self.line + b"/digest/%s/%s" % (name, number))})

    def publish_place(self, name: bytes, place: int) -> None:
        self.publish(b"place", name, b"%d" % place)

    def places(self) -> dict[bytes, Published]:
        """The last place that each machine published, by its name. A value that is no number comes from no machine."""
        found = {name: (int(kv["mod_revision"]), data_of(kv, "value")) for name, kv in self.listed(b"place").items()}
        return {
            name: Published(revision, int(value))
            for name, (revision, value) in found.items()
            if re.fullmatch(rb"[0-9]{1,18}", value)
        }

    # Upkeep

    def end_of(self, place: int) -> int:
        """The log's last revision, if its last entry is the one at this place; else the place."""
        last, kvs = self.last()
        return last if kvs and int(kvs[0]["mod_revision"]) == place else place

    def compact(self, place: int) -> None:
        """Lets the log forget the entries before a place; the members free their room by and by. It is no fault if the
        log had forgotten them already."""
        try:
            self.call("/v3/kv/compaction", {"revision": str(place)})
        except Refused as fault:
            if fault.code != NO_SUCH_REVISION:
                raise

    def member(self, end: End) -> Member | None:
        """The state of a member; None if it doesn't answer."""
        try:
            status, metrics = self.ask(end, "/v3/maintenance/status", {}), self.metrics(end)
        except OSError:
            return None
        quota = re.search(rb"^etcd_server_quota_backend_bytes ([0-9.e+]+)$", metrics, re.MULTILINE)
        return Member(end, int(status.get("dbSize", 0)), int(status.get("dbSizeInUse", 0)),
                      int(float(quota.group(1))) if quota else QUOTA,
                      status.get("leader") == status["header"]["member_id"])

    def metrics(self, end: End) -> bytes:
        connection = self.connect(end, self.patience)
        try:
            return connection.ask("GET", "/metrics").body.read()
        finally:
            connection.close()

    def is_full(self) -> bool:
        """Whether etcd refuses every put, since a member passed its quota."""
        alarms = self.call("/v3/maintenance/alarm", {"action": "GET"}).get("alarms", [])
        return any(alarm.get("alarm") == "NOSPACE" for alarm in alarms)

    def defragment(self, end: End) -> None:
        """Gives back the free bytes of a member's file. The member answers nothing else meanwhile."""
        self.ask(end, "/v3/maintenance/defragment", {}, 600)

    def disarm(self) -> None:
        for alarm in self.call("/v3/maintenance/alarm", {"action": "GET"}).get("alarms", []):
            if alarm.get("alarm") == "NOSPACE":
                self.call("/v3/maintenance/alarm",
                          {"action": "DEACTIVATE", "alarm": "NOSPACE", "memberID": alarm["memberID"]})
