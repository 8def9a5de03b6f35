"""What is asked of a desk, as exchanges: examples, a day, edges, faults, bad heads, the same day at its own moments, a full desk and a failing store."""
import contextlib
import http.client
import json
import random
import sqlite3
import sys
import tempfile

from bodies import edges, mutated
from exchange import Desk
from trial import TOP, Requests, compact, growths_in, ran, refusing

READS = ("/agents/7", "/calls/1", "/devices/100", "/queues/100", "/events", "/monitors/1/events", "/reports/queues", "/snapshot", "/history", "/requests")
METHODS = ("GET", "HEAD", "POST", "PUT", "DELETE", "OPTIONS", "PATCH")
BAD = ["/events?after=x", "/events?after=1&after=2", "/events?after=1234567890123456", "/events?after=", "/events?after=-1", "/events?after=007&other=x",
       "/history?after=x", "/history?after=1&after=2", "/requests?after=x", "/requests?after=1&after=2", "/requests/", "/monitors/1/events?after=", "/nothing", "/", "/agents/", "/agents/x", "/agents/1234567890", "/agents/7/",
       "/calls/0", "/calls/01", "/calls/9999999999", "/calls/12345678901", "/calls/-1", "/devices/1234567890123456", "/devices/%31", "/queues/", "/queues/x",
       "/csta", "/csta?x=1", "/reports/queues?x=1", "/reports", "/monitors/0/events", "/monitors/x/events", "/snapshot?after=x", "/snapshot/", "/Events"]


def posted(desk, request):
    return desk.ask("POST", "/csta", compact(request).encode())


class Things:
    """What a day names: agents, devices, and the calls and monitors that came of it."""

    def __init__(self):
        self.agents, self.devices, self.calls, self.monitors = {"0"}, {"0"}, {1}, {1}

    def note(self, request, reply):
        self.agents |= {request["agent"]} if "agent" in request else set()
        self.devices |= {request[name] for name in ("device", "called", "caller", "to", "group") if name in request}
        self.calls |= {reply["result"]["call"]} if "call" in reply.get("result", {}) else set()
        self.monitors |= {reply["result"]["monitor"]} if "monitor" in reply.get("result", {}) else set()

    def read(self, chance):
        """A read of one of them."""
        agent, device = chance.choice(sorted(self.agents)), chance.choice(sorted(self.devices))
        call, monitor = max(1, max(self.calls) - chance.randrange(40)), chance.choice(sorted(self.monitors))
        return chance.choice([f"/agents/{agent}", f"/devices/{device}", f"/queues/{device}", f"/calls/{call}", "/reports/queues", "/snapshot",
                              f"/events?after={chance.randrange(20000)}", "/events", f"/history?after={chance.randrange(20000)}", f"/requests?after={chance.randrange(10000)}",
                              f"/monitors/{monitor}/events?after={chance.randrange(100)}", f"/monitors/{monitor}/events"])

    def reads(self):
        """A read of each."""
        for agent in sorted(self.agents):
            yield f"/agents/{agent}"
        for device in sorted(self.devices):
            yield from (f"/devices/{device}", f"/queues/{device}")
        for call in sorted(self.calls):
            yield f"/calls/{call}"
        for monitor in sorted(self.monitors):
            yield f"/monitors/{monitor}/events"


def ask_day(desk, bodies, things):
    chance = random.Random(1)
    for number, body in enumerate(bodies):
        asked = desk.ask("POST", "/csta", body)
        things.note(json.loads(body), json.loads(asked.reply))
        yield asked
        if number % 4 == 0:
            yield desk.ask(chance.choice(["GET", "GET", "GET", "HEAD"]), things.read(chance))


def ask_heads(desk):
    """Bad paths, methods and heads, and bodies that are no request."""
    for target in BAD:
        for method in METHODS:
            yield desk.ask(method, target, b"{}" if method == "POST" else None)
    for body in (b"x" * 4097, None, b"", b"[]", b"null", b"\xff", b'{"requester":"\\ud800"}', b'{"invoke":NaN}'):
        yield desk.ask("POST", "/csta", body)
    heads = [[("Host", None)], [("Host", "a"), ("Host", "b")], [("X", "y" * 9000)], [(f"X-{number}", "y") for number in range(40)], [("Transfer-Encoding", "chunked")],
             [("Content-Length", "x")], [("Content-Length", "2"), ("Content-Length", "2")], [("X y", "z")]]
    for fields in heads:
        for target in ("/csta", *READS):
            method, body = ("POST", b"{}") if target == "/csta" else ("GET", None)
            yield desk.ask(method, target, body, fields)


def ask_all_pages(desk, route, size):
    last = json.loads(desk.ask("GET", route).reply)["last"]
    for after in range(0, last + size, size):
        yield desk.ask("GET", f"{route}?after={after}")


def fill(desk):
    """A desk whose limits are reached: of calls, of each kind of a plan, and of requests; what was executed before still gets its reply."""
    request = Requests()
    requests = [request("arriveCall", "full", caller="0309", called="100"), request("addGroup", "full", device="190", name="G", ring=1, wrap=1), request("addStation", "full", device="290"),
                request("addAgent", "full", agent="90", name="A"), request("monitorStart", "full", device="100"), request("tick", "full"), request("tick", "full")]
    for one in [*requests, requests[0]]:
        yield posted(desk, one)


def narrow(file):
    """Gives a desk's file limits that its rows reach; six more requests are executed."""
    with contextlib.closing(sqlite3.connect(file)) as book, book:
        counts = {name: book.execute(f"SELECT count(*) FROM {table}").fetchone()[0] for name, table in
                  (("calls", "calls"), ("groups", "acd_groups"), ("stations", "stations"), ("agents", "agents"), ("monitors", "monitors"))}
        book.execute("UPDATE meta SET max_requests = last_stamp + 6, " + ", ".join(f"max_{name} = {count}" for name, count in counts.items()))


TICK = Requests()("tick", "none")


def ask_failing(desk):
    """A desk whose store has no room: the first request that it has to keep is answered storeFault, and all from then on."""
    yield posted(desk, TICK)
    for target in READS:
        yield desk.ask("GET", target)
        yield desk.ask("HEAD", target)


def ask_without_memory(program, folder):
    """A request that memory was refused to: of a desk's growths the last one that is answered by noMemory."""
    variables = refusing(folder)

    def serve(name, refused):
        return Desk(program, f"{folder}/{name}.db", connections=1, variables=variables(refused))

    with serve("counted", 0) as desk:
        posted(desk, TICK)
        growths = growths_in(desk.ends().faults)
    for refused in range(growths, max(growths - 100, 0), -1):
        with contextlib.suppress(http.client.HTTPException), serve(f"refused-{refused}", refused) as desk:
            asked = posted(desk, TICK)
            if asked.status == 503:
                yield asked
                return


def exchanges(program, description, faults):
    """All of it, in parts: a name, and its exchanges."""
    lines = ran(sys.executable, TOP / "tests/office.py", "given").output
    bodies = [line.partition(" ")[2].encode() for line in lines.splitlines()]
    things = Things()
    with tempfile.TemporaryDirectory() as folder:
        with Desk(program, f"{folder}/new.db") as desk:
            yield "examples", (desk.ask("POST", "/csta", compact(it["value"]).encode(), example=name) for name, it in description.examples().items())
            yield "a day over HTTP, with reads", ask_day(desk, bodies, things)
            yield "members at their edges", (desk.ask("POST", "/csta", body) for body in edges(description))
            yield "mutated requests", (desk.ask("POST", "/csta", body) for body in mutated(bodies, faults))
            yield "bad paths, methods and heads", ask_heads(desk)
            yield "all requests of these", ask_all_pages(desk, "/requests", 1000)
        # over HTTP the moment is the clock's, so that no tick finds anything overdue
        ran(program, "lines", "--file", f"{folder}/day.db", given=lines)
        with Desk(program, f"{folder}/day.db", room=4096, connections=1000) as desk:
            yield "a store without room", ask_failing(desk)
        with Desk(program, f"{folder}/day.db") as desk:
            yield "a day at its own moments, in pages", ask_all_pages(desk, "/events", 100)
            yield "in long pages", ask_all_pages(desk, "/history", 1000)
            yield "its requests", ask_all_pages(desk, "/requests", 1000)
            yield "reads of all that it named", (desk.ask("GET", target) for target in [*things.reads(), "/snapshot", "/reports/queues"])
        narrow(f"{folder}/day.db")
        with Desk(program, f"{folder}/day.db") as desk:
            yield "a full desk", fill(desk)
        yield "no memory", ask_without_memory(program, folder)
