"""What strangers and bad hands do: entries of a bad form, bodies that look like reads, clients without a certificate, and a machine that does all that its rights allow."""
import base64
import contextlib
import hashlib
import itertools
import json
import resource
import shutil
import socket
import ssl
import subprocess
import threading
import time
from pathlib import Path

from machines import COMMANDS, OfMachines, is_entry, run, wait_until
from trial import bytes_back

TOKEN = b"00000000000000000000000000000bad"
TICK = b'{"requester":"vandal","invoke":1,"service":"tick"}'
# None of these is an entry; the first is what stopped all machines for good.
BAD = [b"nospace", b"", b" ", TOKEN, TOKEN + b" ", TOKEN + b" 5", TOKEN + b" 5 ", TOKEN + b" " + TICK, TOKEN + b" -5 " + TICK, TOKEN + b" 5.0 " + TICK, TOKEN + b" 12345678901 " + TICK,
       TOKEN[1:] + b" 5 " + TICK, b"x" + TOKEN + b" 5 " + TICK, TOKEN[1:] + b"g 5 " + TICK, TOKEN + b"  5 " + TICK, TOKEN + b" 5\t" + TICK, b"\n" + TOKEN + b" 5 " + TICK,
       TOKEN + b" 5 " + TICK + b"\n", TOKEN + b" 5 " + TICK + b"\r", TOKEN + b" 5 {\n}", TOKEN + b" 5 " + TICK + b"\n6 " + TICK, TOKEN + b" 5 GET /snapshot", TOKEN + b" 5 GET", TOKEN + b" 5 HEAD /snapshot",
       TOKEN + b" 5 " + b"x" * 4097, b"x" * 100000, bytes(range(256)), b"\xff" * 39, "ähm".encode()]
# These are, and the desk answers each of them 400: no moment, no JSON, bytes of any kind, a read that isn't one.
ODD = [TOKEN + b" 4294967296 " + TICK, TOKEN + b" 9999999999 " + TICK, TOKEN + b" 5 x", TOKEN + b" 5 \x00\xff", TOKEN + b" 5 get /snapshot", TOKEN + b" 5  GET /snapshot", TOKEN + b" 5 " + b"x" * 4096]
GOOD = TOKEN + b" 5 " + TICK
LONG = TOKEN + b" 5 " + b"x" * 4096
# None of these is a value of several entries, and not one of those in it is fed.
BAD += [b"*", b"*\n", b"*" + GOOD, b"*\n" + GOOD + b"\n", b"*\n\n" + GOOD, b"*\n" + GOOD + b"\n*\n" + GOOD, b"**\n" + GOOD, b"*\r\n" + GOOD, b"\n*\n" + GOOD, b"*" + 101 * (b"\n" + GOOD),
        b"*" + 64 * (b"\n" + LONG), *(b"*\n" + GOOD + b"\n" + bad + b"\n" + GOOD for bad in BAD)]
# And these are.
ODD += [b"*\n" + b"\n".join(ODD), b"*" + 100 * (b"\n" + GOOD), b"*" + 63 * (b"\n" + LONG), b"*\n" + GOOD]
JSON = b'{"error":{"code":30,"member":"json","name":"malformed"}}'


def vandal(machines, end):
    """Puts each bad entry, and each odd one, while others ask; deletes the line in between."""
    for number, entry in enumerate(BAD + ODD + BAD):
        words = ["del", "desk/line"] if number % 20 == 10 else ["put", "desk/line", *([] if entry else [""])]
        if not wait_until(lambda: machines.etcdctl(*words, value=entry), step=0.2):  # what leads may just have been killed
            return machines.see("etcdctl puts what is no entry", False, entry)
        time.sleep(0 if end.is_set() else 0.2)


def digest_over(everything, answers):
    """That of the answers to the entries, and of the bytes of what is none, in their order."""
    found, answers = b"0" * 64, iter(answers)
    for entry in everything:
        found = hashlib.sha256(found + (next(answers) + b"\n" if is_entry(entry) else entry)).hexdigest().encode()
    return found.decode()


def bad_bodies(machines):
    """Bodies that a desk refuses, and that no log must have; and one of several lines, which is a request."""
    before = len(machines.everything())
    for body in ["", "GET /snapshot", "GET", "HEAD /snapshot"]:
        replies = [machines.ask(n, body) for n in (1, 2, 3)]
        machines.see("a body that is no request", replies == [(400, JSON)] * 3, (body, replies))
    machines.see("none of them is in the log", len(machines.everything()) == before)
    lines = '{\r\n"requester":"lines",\n"invoke":1,\r"service":"tick"\r\n}\r\n'
    machines.see("a body of several lines", machines.ask(1, lines) == (200, b'{"invoke":1,"requester":"lines","result":{}}'), machines.ask(1, lines))
    broken = '{"requester":"lines","invoke":2,"service":"addGroup","device":"800","name":"Bil\nling","ring":1,"wrap":1}'
    machines.see("a text of several lines is no JSON, as at a desk", machines.ask(2, broken) == (400, JSON), machines.ask(2, broken))
    digits = send(machines, 3, b"POST /csta HTTP/1.1\r\nHost: desk\r\nContent-Length: " + b"9" * 5000 + b"\r\n\r\n{}")
    machines.see("digits without end", digits.startswith(b"HTTP/1.1 413 ") and digits.endswith(b'{"error":{"code":38,"name":"bodyTooLarge"}}'), digits)


def send(machines, n, sent, context=None):
    """What a machine answers to these bytes."""
    return bytes_back(machines.ports[n], sent, context or machines.context, seconds=10)


def strangers(machines):
    """Who has no certificate gets nothing; and no node listens where strangers are without asking for one."""
    arrive = json.dumps({"requester": "stranger", "invoke": 1, "service": "arriveCall", "caller": "1", "called": "100"}).encode()
    post = b"POST /csta HTTP/1.1\r\nHost: desk\r\nContent-Length: %d\r\n\r\n%s" % (len(arrive), arrive)
    before = len(machines.everything())
    if machines.context:
        bare = ssl.create_default_context(cafile=machines.folder / "ca.crt")
        for n in (1, 2, 3):
            for sent in (post, b"GET /snapshot HTTP/1.1\r\nHost: desk\r\n\r\n"):
                reply = send(machines, n, sent, bare)
                machines.see("a stranger without a certificate gets nothing", reply == b"", reply)
    requests(machines)
    for address in own_addresses():
        for n in (1, 2, 3):
            machines.see(f"nobody listens at {address}", not answers(address, machines.ports[n]))
    for more in [[], ["--cert", machines.folder / "m.crt", "--key", machines.folder / "m.key"]]:
        words = [COMMANDS / "acd-node", "--name", "m4", "--folder", machines.folder / "m4", "--etcd", machines.ends, "--desk", machines.program, "--bind", "0.0.0.0", "--port", machines.ports[1], *more]
        done = subprocess.run(list(map(str, words)), stderr=subprocess.PIPE, timeout=20)
        machines.see("a node that would ask no stranger for a certificate doesn't start", done.returncode == 2 and b"--client-ca" in done.stderr, done)
    machines.see("nothing of theirs is in the log", len(machines.everything()) == before)


def requests(machines):
    """By a certificate executed requests aren't read; where a gate stands before it a node tells what its desk tells."""
    status = 403 if machines.context else 200
    for target, wanted in (("/requests", status), ("/requests?after=0", status), ("http://desk/requests", status), ("HTTP://desk/requests?/x", status),
                           ("//requests", 404), ("/requests/", 404), ("/%72equests", 404)):
        reply = send(machines, 1, f"GET {target} HTTP/1.1\r\nHost: desk\r\n\r\n".encode(), machines.context)
        machines.see(f"{target} of a node", reply.startswith(b"HTTP/1.1 %d " % wanted) and (b'"requests":[' in reply) == (wanted == 200), reply[:200])


def own_addresses():
    """This machine's addresses that aren't loopback."""
    addresses = run(["hostname", "-I"], text=True).stdout.split()
    return [address for address in addresses if ":" not in address]


def answers(address, port):
    try:
        socket.create_connection((address, port), timeout=3).close()
        return True
    except OSError:
        return False


# One machine of three, by its own user of etcd

class Hostile(OfMachines):
    def try_hostile(self):
        """Before etcd asks for users anybody writes anything; from then on machine 1 does what it may. No machine ends by that, and none answers otherwise than two others."""
        machines, chance = self.begin(encrypted=True, names=True, users=True), self.chance
        machines.ask_until_answered('{"requester":"plan","invoke":1,"service":"addGroup","device":"100","name":"Billing","ring":20,"wrap":30}', chance, [])
        alien_digests(machines)
        machines.ask_for_users()
        goes_on(machines, "etcd asks for users while all run")
        not_its_own(machines)
        its_own(machines)
        entries_and_deletes(machines)
        deleted_and_compacted(machines)
        compacted_while_one_was_away(machines)
        alarms(machines)
        much_at_once(machines)
        differs(machines, chance)
        doors(machines)
        same_desks(machines)


def kv(key, value=None, **more):
    words = {"key": base64.b64encode(key.encode()).decode(), **more}
    return words if value is None else {**words, "value": base64.b64encode(value).decode()}


def put(machines, key, value, user=None):
    return machines.etcd_call(1, "/v3/kv/put", kv(key, value), user)


def put_ticks(machines, requester, many):
    """Entries that the log gets without a node."""
    for number in range(many):
        put(machines, "desk/line", b"%032x 5 " % number + json.dumps({"requester": requester, "invoke": number + 1, "service": "tick"}).encode())


INVOKES = itertools.count(1)


def goes_on(machines, what, silence=0):
    """All three run, answer requests and reads, and are one desk. After `silence` seconds each has asked anew where the log goes on."""
    time.sleep(silence)
    alive = [node.poll() for node in machines.nodes.values()] == [None] * 3

    def answers_all(n):
        tick = json.dumps({"requester": "goes-on", "invoke": next(INVOKES), "service": "tick"})
        return machines.ask(n, tick)[0] == machines.ask(n, None, 5, "/snapshot")[0] == 200

    good = alive and wait_until(lambda: all(map(answers_all, (1, 2, 3))), 60) and machines.wait_until_equal(60)
    machines.see(what, good, (alive, machines.places(), [machines.said(n)[-300:] for n in (1, 2, 3)]))


def alien_digests(machines):
    """What two puts did once: they ended all machines."""
    put_ticks(machines, "first", 1000)
    machines.see("all have a digest", wait_until(lambda: all("kvs" in machines.etcd_call(1, "/v3/kv/range", kv(f"desk/line/digest/m{n}/1000")) for n in (1, 2, 3)), 60))
    for name in ("1000/zz1", "1000/zz2", "zz1/1000", "zz2/1000"):
        put(machines, f"desk/line/digest/{name}", b"0000")
    goes_on(machines, "digests of machines that there aren't", 5)
    for name in ("1000/m2", "1000/m3", "m2/1000", "m3/1000"):
        put(machines, f"desk/line/digest/{name}", b"0000")
    goes_on(machines, "digests in the names of two, which put theirs again", 5)


def not_its_own(machines):
    """What machine 1 has no right to."""
    calls = [("/v3/kv/put", kv(key, b"0000")) for key in ("desk/line/digest/m2/1000", "desk/line/digest/1000/m2", "desk/line/digest/1000/zz1", "desk/line/digest/zz1/1000",
                                                          "desk/line/place/m2", "desk/line/place/zz1", "desk/line/digest/m10/1000", "desk/linex", "x")]
    calls += [("/v3/kv/deleterange", kv("desk/line", range_end=kv("desk/linf")["key"])), ("/v3/kv/deleterange", kv("desk/line/digest/m2/1000")),
              ("/v3/auth/disable", {}), ("/v3/auth/user/changepw", {"name": "m2", "password": "x"}), ("/v3/auth/role/grant", {"name": "m1", "perm": {"permType": 2, "key": ""}}),
              ("/v3/maintenance/defragment", {}), ("/v3/cluster/member/add", {"peerURLs": ["https://127.0.0.1:9"]})]
    for path, body in calls:
        found = machines.etcd_call(1, path, body, "m1")
        machines.see(f"{path} {body} isn't its own", "permission denied" in str(found.get("error")), found)


def its_own(machines):
    """What it says of itself is its own matter."""
    for value in (b"", b"x", b"-1", b"0", b"9" * 18, b"9" * 5000, b"x" * 1000000):
        machines.see("its place", "header" in put(machines, "desk/line/place/m1", value, "m1"))
        time.sleep(1.2)
    for count in ("1000", "2000", "x", "1000/x"):
        machines.see("its digest", "header" in put(machines, f"desk/line/digest/m1/{count}", b"0000", "m1"))
    goes_on(machines, "places and digests of its own", 3)


def entries_and_deletes(machines):
    for entry in BAD + ODD:
        machines.see("an entry", "header" in put(machines, "desk/line", entry, "m1"))
    for _ in range(3):
        machines.see("the log's key is deleted", "header" in machines.etcd_call(1, "/v3/kv/deleterange", kv("desk/line"), "m1"))
        put(machines, "desk/line", b"", "m1")
    goes_on(machines, "entries of all forms, and deletes")


def read_up_to(machines, n):
    """The revision up to which a machine has read the log, by its folder."""
    said = (machines.folder / f"m{n}/at").read_text().split()
    return max(int(said[0]), int(said[3]))


def forget(machines, readers=(1, 2, 3)):
    """Lets the log forget all that it has, as anybody may who reaches etcd, once these machines have read that: one that lags behind would lack it, and says so."""
    revision = machines.etcd_call(1, "/v3/kv/range", kv("desk/line"), "m1")["header"]["revision"]
    machines.see("all of it is read", wait_until(lambda: all(read_up_to(machines, n) >= int(revision) for n in readers)), [read_up_to(machines, n) for n in readers])
    machines.see("all is compacted", "header" in machines.etcd_call(1, "/v3/kv/compaction", {"revision": revision, "physical": True}, "m1"))


def deleted_and_compacted(machines):
    """Then nothing shows any more where the log was."""
    forget(machines)
    goes_on(machines, "all that they have is forgotten", 8)
    machines.etcd_call(1, "/v3/kv/deleterange", kv("desk/line"), "m1")
    put(machines, "desk/line/place/m1", b"0", "m1")
    forget(machines)
    time.sleep(8)
    machines.kill_node(2)
    machines.start_node(2)
    goes_on(machines, "the log's key is deleted, and that is forgotten", 8)


def compacted_while_one_was_away(machines):
    machines.kill_node(3)
    put_ticks(machines, "away", 20)
    wait_until(lambda: machines.places()[0] == machines.places()[1] != machines.places()[2], 30)
    forget(machines, (1, 2))
    machines.start_node(3)
    machines.see("what it needs is forgotten: it answers nothing, and says why", machines.refuses(3, "copy the folder of another machine"), machines.said(3)[-300:])
    put_ticks(machines, "away and back", 20)
    machines.kill_node(2)
    for file in sorted((machines.folder / "m2").iterdir()):
        shutil.copy(file, machines.folder / "m3")
    machines.see("it goes on once another folder is there", wait_until(lambda: machines.ask(3, None, 5, "/snapshot")[0] == 200, 60), machines.said(3)[-300:])
    machines.start_node(2)
    goes_on(machines, "what one needed was forgotten")


def alarms(machines):
    for alarm, ends in (("NOSPACE", lambda: machines.upkeep()[0] == 0), ("CORRUPT", lambda: wait_until(lambda: machines.etcdctl("alarm", "disarm")))):
        found = machines.etcd_call(1, "/v3/maintenance/alarm", {"action": "ACTIVATE", "alarm": alarm, "memberID": "1"}, "m1")
        machines.see(f"it raises {alarm}", "alarms" in found, found)
        machines.see("then a request is 503", machines.ask(2, '{"requester":"alarm","invoke":1,"service":"tick"}')[0] == 503)
        # etcdctl itself gives up after five seconds
        machines.see(f"{alarm} is ended", ends())
        goes_on(machines, f"an alarm {alarm} that is no more")


def most_memory(machines, n):
    """The most that a node had at once, in megabytes."""
    about = Path(f"/proc/{machines.nodes[n].pid}/status").read_text()
    return int(about.partition("VmHWM:")[2].split()[0]) // 1024


def much_at_once(machines, many=100):
    """Entries of a million bytes each, which a machine that was away reads one after another."""
    machines.kill_node(3)
    for _ in range(many):
        put(machines, "desk/line", b"x" * 1000000, "m1")
    machines.start_node(3)
    goes_on(machines, "entries of a million bytes")
    machines.see("it reads them by and by", most_memory(machines, 3) < many, most_memory(machines, 3))


def differs(machines, chance):
    """A machine with an older file under a newer place; and what machine 1 says then is no majority."""
    machines.put_older_file(2, 20, chance)
    machines.arrive("other", "0550", 20, chance, (1, 3))
    put_ticks(machines, "differs", 1100)
    machines.see("it differs, answers nothing, and says why", machines.refuses(2, "differ from those of two other machines"), machines.said(2)[-300:])
    machines.see("the others answer", all(machines.ask(n, None, 5, "/snapshot")[0] == 200 for n in (1, 3)))
    machines.kill_node(2)
    machines.start_node(2)
    machines.see("a start mends nothing", not wait_until(lambda: machines.ask(2, None, 5, "/snapshot")[0] == 200, 10) and machines.nodes[2].poll() is None)
    machines.copy_folder(2, 3)
    goes_on(machines, "with another folder it is one of them again")


# Connections

def doors(machines):
    """Strangers who connect to a node and say nothing, beside clients with a certificate, who have a limit of their own."""
    resource.setrlimit(resource.RLIMIT_NOFILE, (8192, 8192))
    with contextlib.ExitStack() as held:
        for address, many in [("127.0.0.1", 600), *((f"127.0.1.{number}", 10) for number in range(1, 61))]:
            for _ in range(many):
                held.enter_context(socket.create_connection(("127.0.0.1", machines.ports[1]), timeout=20, source_address=(address, 0)))
        start = time.monotonic()
        status, seconds = machines.ask(1, None, 15, "/snapshot")[0], time.monotonic() - start
        machines.see("a client with a certificate is served beside them", status == 200 and seconds < 1, (status, seconds))
    met, lock = [], threading.Lock()

    def meet(many):
        for _ in range(many):
            plain = socket.create_connection(("127.0.0.1", machines.ports[1]), timeout=60)
            connection = machines.context.wrap_socket(plain, server_hostname="127.0.0.1")
            with lock:
                met.append(connection)

    start, threads = time.monotonic(), [threading.Thread(target=meet, args=(250,)) for _ in range(8)]
    for thread in threads:
        thread.start()
    for thread in threads:
        thread.join()
    seconds = time.monotonic() - start
    machines.see("2,000 with a certificate are the most", len(met) == 2000 and machines.ask(1, None, 15, "/snapshot")[0] == (503 if seconds < 60 else 200), (len(met), seconds))
    for connection in met:
        connection.close()
    goes_on(machines, "all of them have left")


def same_desks(machines):
    """The three desks are one, and sound."""
    for n in (1, 2, 3):
        machines.kill_node(n)
    files = [machines.folder / f"m{n}/desk.db" for n in (1, 2, 3)]
    audits = [run([machines.program, "audit", "--file", file]).stdout for file in files]
    exports = [run([machines.program, "export", "--file", file]).stdout for file in files]
    machines.see("the desks are sound and one", audits == [b"sound\n"] * 3 and exports == exports[:1] * 3 and exports[0].count(b"\n") > 20, audits)
