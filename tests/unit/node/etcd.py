"""An etcd of the tests: the answers of Debian's etcd 3.4 to the calls that a node makes, over a store in memory, and the faults that a test asks of a member."""
import base64
import json
import threading
import time
from http.server import BaseHTTPRequestHandler, ThreadingHTTPServer


def text(data):
    return base64.b64encode(data).decode()


def data(word):
    return base64.b64decode(word)


class Store:
    """The common state of the members: each change with its revision, the revision up to which changes are forgotten, the alarm of a full etcd, and the users with their
    passwords and what they may write; without any everybody may write everything. `leader` is the member that leads, if any does."""

    def __init__(self):
        self.changes, self.revision, self.compacted, self.full, self.changed = [], 1, 0, False, threading.Condition()
        self.users, self.rights, self.leader = {}, {}, None

    def put(self, key, value):
        with self.changed:
            self.revision += 1
            before = self.at(key, self.revision)
            self.changes.append({"key": key, "value": value, "mod": self.revision, "version": before["version"] + 1 if before else 1})
            self.changed.notify_all()
            return self.revision

    def delete(self, key):
        with self.changed:
            if not self.at(key, self.revision):
                return 0
            self.revision += 1
            self.changes.append({"key": key, "value": None, "mod": self.revision, "version": 0})
            self.changed.notify_all()
            return 1

    def at(self, key, revision):
        """The key as it was at a revision; None where it wasn't there."""
        found = [change for change in self.changes if change["key"] == key and change["mod"] <= revision]
        return found[-1] if found and found[-1]["value"] is not None else None

    def forget_all(self):
        """An etcd that was made anew."""
        with self.changed:
            self.changes, self.revision, self.compacted = [], 1, 0
            self.changed.notify_all()


def record(change):
    kv = {"key": text(change["key"]), "mod_revision": str(change["mod"])}
    if change["version"]:
        kv["version"] = str(change["version"])
    if change["value"]:                                    # etcd leaves out what is empty
        kv["value"] = text(change["value"])
    return kv


class Refused(Exception):
    def __init__(self, status, code, words):
        super().__init__(words)
        self.status, self.body = status, {"error": words, "message": words, "code": code}


FUTURE = 400, 11, "etcdserver: mvcc: required revision is a future revision"
COMPACTED = 400, 11, "etcdserver: mvcc: required revision has been compacted"
FULL = 429, 8, "etcdserver: mvcc: database space exceeded"
NO_LEADER = 503, 14, "etcdserver: no leader"
UNKNOWN = 401, 16, "etcdserver: invalid auth token"
WRONG = 400, 3, "etcdserver: authentication failed, invalid user ID or password"
DENIED = 403, 7, "etcdserver: permission denied"


class Member:
    """One member, on a port of its own. `lag`: how many of the last changes its watches don't know yet. `late`: for how long it keeps an answer back. `twice`: it does each
    put twice, and reports each event twice. `shuffled`: it reports the later of two events first. `broken`: it ends a watch within a line. `away`: it has no leader. `garbage`: it
    answers no JSON. `leaves`: the bytes in use that it shows at the first question, the second and so on."""

    def __init__(self, store, port=0):
        self.store, self.lag, self.late, self.size, self.used, self.quota = store, 0, 0, 1000, 500, 2 * 2 ** 30
        self.twice = self.shuffled = self.broken = self.away = self.garbage = False
        self.asked, self.ended, self.leaves, self.tokens = [], False, [], {}
        self.server = ThreadingHTTPServer(("127.0.0.1", port), Handler)
        self.server.daemon_threads, self.server.member = True, self
        self.end = f"127.0.0.1:{self.server.server_address[1]}"
        self.name = str(self.server.server_address[1] + 10 ** 18)
        threading.Thread(target=self.server.serve_forever, kwargs={"poll_interval": 0.05}, daemon=True).start()

    def close(self):
        self.ended = True
        with self.store.changed:
            self.store.changed.notify_all()
        self.server.shutdown()
        self.server.server_close()

    def put(self, body):
        if self.store.full:
            raise Refused(*FULL)
        for _ in range(2 if self.twice else 1):
            self.store.put(data(body["key"]), data(body.get("value", "")))
        return {}

    def txn(self, body):
        return {"succeeded": True, "responses": [{"response_range": self.range(one["request_range"])} for one in body["success"]]}

    def authenticate(self, body):
        if self.store.users.get(body["name"]) != body["password"]:
            raise Refused(*WRONG)
        token = f"token.{len(self.tokens)}"
        self.tokens[token] = body["name"]
        return {"token": token}

    def admit(self, path, body, token):
        """Refuses who has no token of this member, and who may not write this."""
        if not self.store.users or path.startswith(("/v3/auth", "/v3/maintenance")) and "defrag" not in path:
            return
        if token not in self.tokens:
            raise Refused(*(UNKNOWN if token else DENIED))
        if path.endswith(("put", "deleterange")) and not self.store.rights[self.tokens[token]](data(body["key"])):
            raise Refused(*DENIED)

    def range(self, body):
        store, revision = self.store, int(body.get("revision", 0))
        if revision > store.revision:
            raise Refused(*FUTURE)
        if 0 < revision < store.compacted:
            raise Refused(*COMPACTED)
        first = data(body["key"])
        last = data(body["range_end"]) if "range_end" in body else first + b"\0"
        keys = sorted({change["key"] for change in store.changes if first <= change["key"] < last})
        kvs = [record(found) for found in (store.at(key, revision or store.revision) for key in keys) if found]
        return {"kvs": kvs, "count": str(len(kvs))} if kvs else {}

    def delete(self, body):
        return {"deleted": str(self.store.delete(data(body["key"])))}

    def compact(self, body):
        revision = int(body["revision"])
        if revision <= self.store.compacted:
            raise Refused(*COMPACTED)
        if revision > self.store.revision:
            raise Refused(*FUTURE)
        self.store.compacted = revision
        return {}

    def status(self, body):
        self.used = self.leaves.pop(0) if self.leaves else self.used
        leads = {"leader": self.store.leader.name} if self.store.leader else {}
        return {"version": "3.4.23", "dbSize": str(self.size), "dbSizeInUse": str(self.used), **leads}

    def alarm(self, body):
        if body["action"] == "DEACTIVATE":
            self.store.full = False
        return {"alarms": [{"memberID": "1", "alarm": "NOSPACE"}]} if self.store.full else {}

    def defragment(self, body):
        self.size = self.used
        return {}

    def answer(self, path, body, token):
        calls = {"/v3/auth/authenticate": self.authenticate, "/v3/kv/txn": self.txn, "/v3/kv/put": self.put, "/v3/kv/range": self.range, "/v3/kv/deleterange": self.delete, "/v3/kv/compaction": self.compact,
                 "/v3/maintenance/status": self.status, "/v3/maintenance/alarm": self.alarm, "/v3/maintenance/defragment": self.defragment}
        with self.store.changed:
            if self.away:
                raise Refused(*NO_LEADER)
            self.asked.append((path, body))
            self.admit(path, body, token)
            return {"header": {"revision": str(self.store.revision), "member_id": self.name}, **calls[path](body)}

    def news(self, first, last, start):
        """The changes of some keys from a revision on, as far as this member knows; waits for some."""
        with self.store.changed:
            known = [change for change in self.store.changes if first <= change["key"] < last and change["mod"] >= start]
            known = known[:len(known) - self.lag] if self.lag else known
            if not known:
                self.store.changed.wait(0.05)
            return known

    def lines(self, body, token=None):
        """The results that a watch reports, a line after another."""
        request = body["create_request"]
        first, start, header = data(request["key"]), int(request["start_revision"]), {"revision": str(self.store.revision)}
        last = data(request["range_end"]) if "range_end" in request else first + b"\0"
        if self.store.users and token not in self.tokens:
            yield {"header": header, "created": True, "canceled": True, "cancel_reason": f"rpc error: code = Unauthenticated desc = {(UNKNOWN if token else DENIED)[2]}"}
            return
        yield {"header": header, "created": True}
        if start < self.store.compacted:
            yield {"header": header, "canceled": True, "compact_revision": str(self.store.compacted)}
            return
        while not self.ended:
            known = self.news(first, last, start)
            if not known:
                yield None
                continue
            start = known[-1]["mod"] + 1
            events = [{"type": "DELETE", "kv": record(change)} if change["value"] is None else {"kv": record(change)} for change in known]
            events = [event for event in events for _ in range(2)] if self.twice else events
            yield {"header": header, "events": events[::-1] if self.shuffled else events}


class Handler(BaseHTTPRequestHandler):
    protocol_version = "HTTP/1.1"
    disable_nagle_algorithm = True

    def send(self, status, body):
        self.send_response(status)
        self.send_header("Content-Length", str(len(body)))
        self.end_headers()
        self.wfile.write(body)

    def do_GET(self):
        self.send(200, b"etcd_mvcc_db_total_size_in_bytes 1\netcd_server_quota_backend_bytes %s\n" % f"{self.server.member.quota:.9e}".encode())

    def do_POST(self):
        member = self.server.member
        body = json.loads(self.rfile.read(int(self.headers["Content-Length"])))
        try:
            if self.path == "/v3/watch":
                return self.watch(member, body)
            answer = member.answer(self.path, body, self.headers["Authorization"])
            time.sleep(member.late)                        # it is done, and nobody knows
            self.send(200, b"{garbage" if member.garbage else json.dumps(answer).encode())
        except Refused as fault:
            self.send(fault.status, json.dumps(fault.body).encode())
        except OSError:
            self.close_connection = True

    def watch(self, member, body):
        self.send_response(200)
        self.send_header("Transfer-Encoding", "chunked")
        self.end_headers()
        for result in member.lines(body, self.headers["Authorization"]):
            if result is None:
                if member.away or member.ended:
                    break
                continue
            line = json.dumps({"result": result}).encode() + b"\n"
            if member.broken and "events" in result:
                self.wfile.write(b"%x\r\n%s\r\n0\r\n\r\n" % (len(line) // 2, line[:len(line) // 2]))
                break
            self.wfile.write(b"%x\r\n%s\r\n" % (len(line), line))
            self.wfile.flush()
        self.close_connection = True

    def log_message(self, *words):
        pass
