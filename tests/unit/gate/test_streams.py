#!/usr/bin/python3
"""Tests of the streams by which pages are told what changes.   usage: tests/unit/gate/test_streams.py

Needs python3-aiohttp, python3-passlib and python3-bcrypt (Debian packages)."""
import asyncio
import contextlib
import gzip
import http.client
import io
import json
import socket
import threading
import time
import unittest
import zlib
from unittest import mock

from standing import FORBIDDEN, NO_DESK, PATIENCE, ROLES, SECRET, USERS, DoorTest, Named, basic

from acd_service.gate import boards, door, following, server, streams
from acd_service.gate.boards import Sight
from acd_service.gate.desk import Place
from acd_service.gate.streams import Stream
from in_memory import InMemory, event, logged_on
from trial import bytes_back, until


def read(text):
    """Kind, number and members of an event."""
    kind, *lines = text.decode().rstrip("\n").split("\n")
    told = dict(line.split(": ", 1) for line in lines)
    return kind.removeprefix("event: "), told.get("id"), json.loads(told["data"])


class Page:
    """What a page is told."""

    def __init__(self):
        self.told, self.is_closed = [], False

    def write(self, *parts):
        self.told.append(read(b"".join(parts)))

    def is_gone(self):
        return self.is_closed

    def of(self, *kinds):
        return [members for kind, _, members in self.told if kind in kinds]

    @property
    def number(self):
        return [number for _, number, _ in self.told if number][-1]


class StreamsTest(Named, unittest.IsolatedAsyncioTestCase):
    """Turns are taken by hand, by a clock of its own."""

    async def asyncSetUp(self):
        self.desk = InMemory()
        self.following = following.Following(self.desk.ask, lambda: 5000.0)
        self.streams, self.now = self.following.streams, 0.0
        self.streams.clock = lambda: self.now
        self.enterContext(mock.patch.object(self.streams, "run", lambda: asyncio.sleep(0)))
        await self.following.catch_up()

    async def page(self, login="sup", after="", may=lambda: True, **sees):
        page = Page()
        page.stream = Stream(login, may, **(sees or {"sight": Sight(0)}))
        page.task = asyncio.create_task(self.streams.hold(page.stream, page, after))
        await asyncio.sleep(0)
        return page

    async def turn(self, seconds=1.0):
        await self.following.catch_up()
        for task in list(self.streams.boards.tasks if self.streams.boards else ()):
            await task
        self.now += seconds
        list(self.streams.take_turn(self.now))
        await asyncio.sleep(0)

    async def test_a_board(self):
        """A picture, and then what changes, once a second at most."""
        page = await self.page()
        (kind, _, picture), = page.told
        self.assertEqual((kind, picture["live"], picture["agents"]["7"], picture["groups"]), ("picture", True, {"doing": "null", "name": "Ana"}, {"100": {"name": "Billing", "ring": 20, "wrap": 30}}))
        await self.turn()
        page.told.clear()
        self.desk.events.append(logged_on(1))
        await self.turn(0.3)
        self.assertEqual(page.told, [])
        await self.turn(0.8)
        change, = page.of("change")
        self.assertEqual(change["agents"], {"7": {"doing": "notReady", "groups": ["100"], "name": "Ana", "since": 1001, "station": "201"}})
        self.assertEqual((change["groups"]["100"]["counts"], change["desk"]), ({"notReady": 1}, {"last": 1, "moment": 1001}))
        page.told.clear()
        await self.turn(1.1)
        self.assertEqual(page.told, [])

    async def test_a_board_that_comes_later(self):
        """It begins with the desk as it is, and not as the last board was told."""
        page = await self.page()
        page.stream.end("left")
        await page.task
        self.desk.events.append(logged_on(1))
        await self.following.catch_up()
        self.now += 30
        later = await self.page()
        self.assertEqual((later.told[0][0], later.told[0][2]["agents"]["7"]["doing"]), ("picture", "notReady"))

    async def test_a_board_and_a_new_snapshot(self):
        """What that shows comes between two turns, and is told a second after the last change."""
        page, agents = await self.page(), self.desk.plan["agents"]
        for name, times in (("Bernd", (1.1,)), ("Benno", (0.3, 0.3, 0.5))):
            agents[1]["name"], self.following.renewed = name, -following.RENEW
            page.told.clear()
            for seconds in times:
                self.assertEqual(page.of("change"), [])
                await self.turn(seconds)
            self.assertEqual([change["agents"]["8"]["name"] for change in page.of("change")], [name])

    async def test_an_agent(self):
        """Own state and calls at once, queues once a second, callers of others shortened."""
        self.desk.events.append(logged_on(1))
        await self.following.catch_up()
        page = await self.page("ana", agent="7")
        (kind, _, picture), = page.told
        self.assertEqual((kind, picture["agent"]["device"], picture["calls"], picture["queues"], picture["groups"]["100"]["loggedOn"], picture["names"]["stations"], "live" in picture),
                         ("picture", "201", [], ["100"], 1, ["201", "202"], True))
        page.told.clear()
        self.desk.texts["/calls/5"] = {"caller": "0301234", "called": "100"}
        self.desk.events.append(event(2, event="queued", call=5, device="100", cause="newCall"))
        await self.turn(0.3)
        self.assertEqual(page.told, [])
        await self.turn(0.8)
        self.assertEqual([change["groups"] for change in page.of("change")], [{"100": {"calls": [{"call": 5, "caller": "...234", "queued": 1002}], "device": "100", "loggedOn": 1, "name": "Billing", "ready": 0, "ring": 20, "wrap": 30}}])
        page.told.clear()
        self.desk.events += [event(3, event="diverted", call=5, device="100", to="201", group="100", cause="distributed"), event(4, event="delivered", call=5, device="201", group="100", cause="distributed")]
        await self.following.catch_up()
        change, = page.of("change")
        self.assertEqual((change["calls"][0]["caller"], change["calls"][0]["connections"][0]["state"], "groups" in change), ("0301234", "alerting", False))

    async def test_an_agent_who_logs_on_elsewhere(self):
        """The page is told the new queues, and which of them are its own."""
        self.desk.plan["groups"].append({"device": "110", "name": "Orders", "ring": 0, "wrap": 0})
        self.following.renewed = -following.RENEW
        await self.following.catch_up()
        page = await self.page("ana", agent="7", groups=frozenset({"100"}))
        self.assertEqual((page.told[0][2]["queues"], list(page.told[0][2]["groups"])), (["100"], ["100"]))
        page.told.clear()
        self.desk.events.append(logged_on(1, group="110"))
        await self.following.catch_up()
        change, = page.of("change")
        self.assertEqual((change["queues"], list(change["groups"]), change["agent"]["groups"]), (["110"], ["110"], ["110"]))

    async def test_names_come_again_where_they_changed(self):
        page = await self.page("ana", agent="7")
        names = page.told[0][2]["names"]
        page.told.clear()
        again = await self.page("ana", after=self.streams.name(page.stream), agent="7")
        self.assertEqual((again.told[0][0], "names" in again.told[0][2]), ("picture", False))
        self.following.renewed, self.following.named = -following.RENEW, -100.0
        self.desk.plan["agents"][0]["name"] = "Anna"
        await self.turn()
        changes = page.of("change", "picture")
        self.assertEqual(([each["names"]["agents"][0] for each in changes if "names" in each], names), ([["7", "Anna"]], {"agents": [["7", "Ana"], ["8", "Ben"]], "groups": [["100", "Billing"]], "stations": ["201", "202"]}))

    async def test_a_board_goes_on(self):
        """From its number; and begins anew from another epoch, another sight, a number that isn't kept or was never given."""
        page = await self.page()
        await self.turn()
        number = page.number
        self.desk.events.append(logged_on(1))
        await self.turn()
        again = await self.page(after=number)
        self.assertEqual((again.told[0][0], list(again.told[0][2]["agents"])), ("change", ["7"]))
        self.assertEqual((await self.page(after=page.number)).told[0][0], "change")
        epoch, serial, at = page.number.split("-")
        for other in (f"{int(epoch, 16) + 1:x}-{serial}-{at}", f"{epoch}-{int(serial) + 1}-{at}", f"{epoch}-{serial}-{int(at) + 10 ** 6}", f"{epoch}-{serial}-", f"{epoch}-{serial}-{'9' * 20}", "x", ""):
            self.assertEqual((await self.page(after=other)).told[0][0], "picture", other)
        self.assertEqual((await self.page(after=page.number, sight=Sight(7))).told[0][0], "picture")
        page.stream.view.tables["calls"].floor = self.following.number + 1
        self.assertEqual((await self.page(after=page.number)).told[0][0], "picture")

    async def test_another_desk(self):
        """Who looks gets a new picture, in another epoch."""
        self.desk.events.append(logged_on(1))
        await self.following.catch_up()
        board, agent = await self.page(), await self.page("ana", agent="7")
        before = board.number.split("-")[0]
        for page in (board, agent):
            page.told.clear()
        self.desk.events = []
        with self.assertRaises(following.Away):
            await self.following.catch_up()
        await self.turn()
        await self.turn()
        self.assertEqual((board.of("picture")[0]["agents"]["7"]["doing"], agent.of("picture")[0]["agent"]["state"], board.number.split("-")[0] == before), ("null", "null", False))

    async def test_signs_of_life(self):
        """Each five seconds, and at once where the desk goes or comes back."""
        page = await self.page()
        await self.turn()
        page.told.clear()
        for _ in range(4):
            await self.turn(1.2)
        self.assertEqual([kind for kind, _, _ in page.told], ["beat"])
        page.told.clear()
        self.following.heard -= following.AWAY
        list(self.streams.take_turn(self.now))
        await self.turn(0.0)
        self.assertEqual([members["live"] for members in page.of("beat")], [False, True])

    async def test_who_may_not_look_any_more(self):
        may = mock.Mock(side_effect=[True, False])
        page = await self.page(may=may)
        for _ in range(3):
            await self.turn(1.0)
        self.assertEqual((page.task.done(), may.call_count), (False, 1))
        await self.turn(1.0)
        await page.task
        self.assertEqual((page.told[-1], self.streams.all), (("end", None, {"why": "rights"}), {}))

    async def test_a_page_that_has_left(self):
        page, other = await self.page("ana", agent="7"), await self.page("ana", agent="7")
        page.is_closed = True
        await self.turn()
        await page.task
        self.assertEqual((list(self.streams.all), self.streams.of_agent), ([other.stream], {"7": {other.stream}}))

    async def test_streams_of_a_login(self):
        """A ninth ends the oldest; others have their own."""
        pages = [await self.page() for _ in range(streams.MOST_OF_LOGIN)]
        other = await self.page("wall")
        ninth = await self.page()
        self.assertEqual([page.told[-1][0] for page in (*pages, other, ninth)], ["end"] + ["picture"] * 9)
        self.assertEqual((pages[0].told[-1][2], len(self.streams.all)), ({"why": "streams"}, 9))

    async def test_pictures_are_made_once(self):
        with mock.patch.object(streams, "picture", side_effect=streams.picture) as made:
            pages = [await self.page(f"sup-{number}") for number in range(5)]
            self.assertEqual((made.call_count, len({json.dumps(page.told[0][2]["agents"]) for page in pages})), (1, 1))

    async def test_changes_are_made_once(self):
        """For those that see the same, and were told the same before."""
        pages = [await self.page(f"sup-{number}") for number in range(4)]
        await self.turn()
        others = [await self.page("sup-5"), await self.page("sup-6", sight=Sight(7))]
        self.desk.events.append(logged_on(1))
        with mock.patch.object(streams, "changes", side_effect=streams.changes) as made:
            await self.turn()
        self.assertEqual([page.of("change")[-1]["agents"]["7"]["since"] for page in (*pages, *others)], [1001] * 6)
        self.assertEqual(made.call_count, 2)

    async def test_what_is_told_alike_is_made_once(self):
        """A group's line for all of its agents, whenever they came; and a sign of life."""
        self.desk.events += [logged_on(1), logged_on(2, "8", "202")]
        await self.following.catch_up()
        pages = []
        for number, agent in enumerate("7788"):
            pages.append(await self.page(f"ana-{number}", agent=agent))
            await self.turn(0.3)
        await self.turn()
        self.desk.events.append(event(3, event="queued", call=5, device="100", cause="newCall"))
        for seconds, kind in ((1.0, "change"), (streams.BEAT, "beat")):
            for page in pages:
                page.told.clear()
            with mock.patch.object(streams, "begun", side_effect=streams.begun) as made:
                await self.turn(seconds)
            self.assertEqual(([[told[0] for told in page.told] for page in pages], made.call_count), ([[kind]] * 4, 1))
            self.assertEqual(len({json.dumps(page.told[0]) for page in pages}), 1)

    async def test_the_desk_goes_between_two_looks_at_a_page(self):
        """An agent's page is looked at once a second, but is told at once that the desk is away."""
        page = await self.page("ana", agent="7")
        await self.turn()
        page.told.clear()
        page.is_closed = True
        self.now += 0.3
        list(self.streams.take_turn(self.now))
        self.assertEqual((page.stream.ended.done(), page.told), (False, []))
        page.is_closed, self.following.heard = False, -following.AWAY
        list(self.streams.take_turn(self.now))
        self.assertEqual([(kind, members["live"]) for kind, _, members in page.told], [("beat", False)])

    async def test_a_turn_is_taken_in_steps(self):
        """Where all get everything anew, others go between; and who leaves meanwhile is told nothing more."""
        pages = [await self.page("ana", agent="7") for _ in range(4)]
        for page in pages:
            page.told.clear()
        self.following.change_all()
        self.now += streams.QUEUES_EVERY
        # each look at the clock takes half a step
        with mock.patch.object(self.streams, "clock", side_effect=(streams.STEP / 2 * count for count in range(100))):
            steps = self.streams.take_turn(self.now)
            next(steps)
            told = [len(page.told) for page in pages]
            self.assertEqual((sum(told), max(told)), (2, 1), told)
            pages[3].stream.end("streams")
            list(steps)
        self.assertEqual([[kind for kind, _, _ in page.told] for page in pages], [["picture"]] * 3 + [["end"]])

    async def test_a_view_without_room(self):
        """The stream ends, and says why."""
        await self.page()
        with mock.patch.object(boards, "MOST_VIEWS", 1):
            page = await self.page(sight=Sight(1))
        await page.task
        self.assertEqual(page.told, [("end", None, {"why": "views"})])

    async def test_views_are_dropped_once_nobody_looks(self):
        page = await self.page()
        page.stream.end("left")
        await page.task
        for _ in range(2):
            await self.turn(streams.KEPT / 2 + 1)
        self.assertEqual(self.streams.boards.views, {})

    async def test_what_nobody_foresaw(self):
        """All begin anew, and the journal is told."""
        page = await self.page()
        mock.patch.stopall()
        with mock.patch.object(self.streams, "take_turn", side_effect=KeyError("x")), contextlib.redirect_stderr(io.StringIO()) as printed:
            await asyncio.wait_for(type(self.streams).run(self.streams), PATIENCE)
        self.assertEqual((page.told[-1][2], printed.getvalue()), ({"why": "fault"}, "acd-gate: streams begin anew: KeyError('x')\n"))

    async def test_who_looks_keeps_the_gate_following(self):
        """And nobody does a minute after the last."""
        page = await self.page()
        self.following.wanted = time.monotonic() - following.WANTED - 1
        self.assertFalse(await self.following.ends())
        page.stream.end("left")
        await page.task
        self.assertTrue(await self.following.ends())
        self.assertEqual((self.following.state, self.streams.boards), (None, None))


SNAPSHOT = {"/snapshot": {"last": 0, "moment": 5, "groups": [], "stations": [], "calls": [], "agents": [{"agent": "7", "name": "Ana", "state": "null", "since": 0, "stamp": 1}]},
            "/history": {"events": [], "last": 0}, "/events": {"events": [], "last": 0}}


class RouteTest(DoorTest):
    def setUp(self):
        super().setUp()
        self.desk.known = SNAPSHOT

    def opened(self, login, query="", route="/stream", **fields):
        """A stream that is open, and a connection to it."""
        connection = http.client.HTTPConnection("127.0.0.1", self.port, timeout=PATIENCE)
        self.addCleanup(connection.close)
        connection.request("GET", f"{route}{query}", headers={"X-Login": login, **{name.replace("_", "-"): value for name, value in fields.items()}})
        return connection.getresponse()

    @staticmethod
    def next(reply):
        """The next event; None at the end."""
        text = b""
        while not text.endswith(b"\n\n"):
            line = reply.readline()
            if not line:
                return None
            text += line
        return read(text)

    def until_end(self, reply):
        while told := self.next(reply):
            last = told
        return last

    def test_who_sees_what(self):
        for login, query, wanted in (("sup", "", "agents"), ("pbx", "?begin=5&limit=20", "sums"), ("pbx", "?agent=7", "agent"), ("ana", "", "agent"), ("cleo", "?agent=7", "agent")):
            reply = self.opened(login, query)
            kind, number, members = self.next(reply)
            self.assertEqual((reply.status, reply.headers["content-type"], reply.headers["cache-control"], reply.headers["x-accel-buffering"], kind, wanted in members, bool(number)),
                             (200, "text/event-stream", "no-store", "no", "picture", True, True), (login, query))
        for login, query in (("ana", "?agent=8"), ("ben", "?agent=7"), ("lea", ""), ("blind", ""), ("Copy.2", ""), ("nobody", ""), ("nobody", "?agent=7"), ("", "")):
            self.assertEqual(self.ask(login, None, "GET", f"/stream{query}"), FORBIDDEN, (login, query))
        for query in ("?agent=x", "?begin=x", "?limit.100=", "?show=all"):
            self.assertEqual(self.ask("sup", None, "GET", f"/stream{query}")[0], 400, query)
        self.assertEqual(self.ask("sup", None, "HEAD", "/stream")[0], 501)

    def test_at_the_route_of_before(self):
        """Who has an nginx.conf without the new one."""
        for login, query, wanted in (("sup", "", "agents"), ("pbx", "&begin=5&limit=20", "sums"), ("ana", "", "agent"), ("cleo", "&agent=7", "agent")):
            reply = self.opened(login, query, "/mine?stream")
            self.assertEqual((reply.status, reply.headers["content-type"], wanted in self.next(reply)[2]), (200, "text/event-stream", True), (login, query))
        for login, query, wanted in (("ana", "&agent=8", 403), ("blind", "", 403), ("nobody", "", 403), ("sup", "&begin=x", 400)):
            self.assertEqual(self.ask(login, None, "GET", f"/mine?stream{query}")[0], wanted, (login, query))
        self.assertEqual(self.ask("sup", None, "HEAD", "/mine?stream")[0], 501)
        for query in ("?streams", "?agent=7&stream"):
            self.assertIn(b'"number":', self.ask("ana", None, "GET", f"/mine{query}")[1])

    def test_it_goes_on(self):
        _, number, _ = self.next(self.opened("sup"))
        for reply in (self.opened("sup", f"?after={number}"), self.opened("sup", "?after=x", Last_Event_ID=number)):
            self.assertEqual(self.next(reply)[0], "change")

    def test_packed(self):
        """By gzip, for who takes that: each event can be read at once, and the whole is whole once it ends."""
        for field, wanted in (("gzip, deflate, br", "gzip"), ("identity", None)):
            reply = self.opened("sup", Accept_Encoding=field)
            self.assertEqual((reply.status, reply.headers["content-encoding"]), (200, wanted))
        reply, unpacked, got, told = self.opened("ana", Accept_Encoding="gzip"), zlib.decompressobj(zlib.MAX_WBITS | 16), b"", b""
        while not told.endswith(b"\n\n"):
            part = reply.read1()
            got, told = got + part, told + unpacked.decompress(part)
        self.assertIn("names", read(told)[2])
        self.standing.do(self.end_all())
        told = gzip.decompress(got + reply.read()).decode()
        self.assertTrue(told.endswith('event: end\ndata: {"why":"rights"}\n\n'), told)

    async def end_all(self):
        for stream in list(self.gate.following.streams.all):
            stream.end("rights")

    def test_http_of_before(self):
        """Without chunks, up to the end of the connection."""
        self.begins(b"GET /stream HTTP/1.0\r\nX-Login: nobody\r\n\r\n", rb"\AHTTP/1.0 403 ")
        with mock.patch.object(streams, "MOST_OF_LOGIN", 1):
            # the second one ends it
            first = self.meanwhile_bytes(b"GET /stream HTTP/1.0\r\nX-Login: sup\r\n\r\n")
            self.assertTrue(until(lambda: self.gate.following.streams.all, PATIENCE))
            self.opened("sup")
            self.assertTrue(until(lambda: first, PATIENCE))
        self.assertRegex(first[0], rb'(?s)\r\n\r\nevent: picture\nid: .*\n\nevent: end\ndata: \{"why":"streams"\}\n\n\Z')
        self.assertNotIn(b"chunked", first[0])

    def meanwhile_bytes(self, sent):
        got = []
        threading.Thread(target=lambda: got.append(bytes_back(self.port, sent, seconds=PATIENCE)), daemon=True).start()
        return got

    def ends(self, change, login="ana", **fields):
        """How long it takes until a stream ends, after a change, by a page's clock."""
        return self.ends_of(self.opened(login, **fields), change)

    def ends_of(self, reply, change):
        self.next(reply)
        began = time.monotonic()
        change()
        self.assertEqual(self.until_end(reply)[2], {"why": "rights"})
        return time.monotonic() - began

    def test_it_is_open_as_long_as_it_may_be(self):
        """Another password, another role, the log-off and the session's end by time end it within five seconds."""
        changes = [lambda: self.users.write_text(USERS.replace(f"ana:{SECRET}", "ana:{SHA}W6ph5Mm5Pz8GgiULbPgzG37mj9g=")), lambda: self.roles.write_text(ROLES.replace("ana agent 7 ", "ana agent 9 "))]
        for change in changes:
            self.assertLess(self.ends(change), 5)
            self.roles.write_text(ROLES)
            self.users.write_text(USERS)
        cookie = self.log_in("ana")[1]["set-cookie"].partition(";")[0]
        self.assertLess(self.ends(lambda: self.exchange("POST", "/logout", None, {"Cookie": cookie}), Cookie=cookie), 5)
        cookie = self.log_in("ana")[1]["set-cookie"].partition(";")[0]
        self.assertLess(self.ends(lambda: setattr(self.gate.sessions, "clock", lambda: time.time() + 13 * 3600), Cookie=cookie), 5)

    def test_the_session_that_an_older_proxy_has_shown(self):
        """It asks first, by the cookie, and sends on the question without it."""
        cookies = [self.log_in("ana")[1]["set-cookie"].partition(";")[0] for _ in range(2)]
        for cookie, place in ((cookies[0], "/mine?stream&after=x"), (cookies[1], "/mine?stream")):
            self.assertEqual(self.exchange("GET", "/auth/any", None, {"X-Signed": "yes", "Cookie": cookie, "X-Path": place})[:2][0], 204)
        first, second = (self.opened("ana", route=place) for place in ("/mine?stream&after=x", "/mine?stream"))
        self.next(second)
        self.assertLess(self.ends_of(first, lambda: self.exchange("POST", "/logout", None, {"Cookie": cookies[0]})), 5)
        self.assertEqual([one.login for one in self.gate.following.streams.all], ["ana"])
        self.assertLess(self.ends_of(second, lambda: self.exchange("POST", "/logout", None, {"Cookie": cookies[1]})), 5)

    def test_who_gave_a_password_has_no_session(self):
        """Neither has who asked at an address that the gate has forgotten."""
        with mock.patch.object(door, "MOST_LET_IN", 2):
            for number in range(3):
                self.assertEqual(self.exchange("GET", "/auth/any", None, {"X-Signed": "yes", "Authorization": basic("ana"), "X-Path": f"/mine?stream&after={number}"})[0], 204)
            self.assertEqual((len(self.gate.door.let_in), set(self.gate.door.let_in.values())), (2, {None}))
        self.assertEqual(self.next(self.opened("ana", route="/mine?stream&after=0"))[0], "picture")

    def test_without_a_desk(self):
        self.gate.desk.where = Place(1)
        with mock.patch.object(following, "AWAY", 0.1):
            self.assertEqual(self.ask("sup", None, "GET", "/stream"), NO_DESK)

    def test_there_is_room_for_so_many(self):
        with mock.patch.object(streams, "MOST", 1):
            first = self.opened("ana")
            self.next(first)
            self.assertEqual([self.ask(login, None, "GET", "/stream")[0] for login in ("sup", "ana")], [429, 429])
        with mock.patch.object(boards, "MOST_VIEWS", 0):
            self.assertEqual(self.ask("sup", None, "GET", "/stream")[0], 429)

    def test_others_are_answered_between_first_pictures(self):
        """Where many pages come at once, a question that comes after all of them, by a connection of its own, doesn't wait for all."""
        self.next(self.opened("sup"))
        begun, begin, held = [], self.gate.following.streams.begin, threading.Event()

        def begin_slowly(*words):
            begun.append(words)
            time.sleep(0.02)
            begin(*words)

        with mock.patch.object(self.gate.following.streams, "begin", begin_slowly):
            self.standing.loop.call_soon_threadsafe(held.wait, PATIENCE)
            pages = [self.sent(b"GET /stream HTTP/1.1\r\nX-Login: sup\r\n\r\n") for _ in range(40)]
            other = self.sent(b"GET /who HTTP/1.1\r\nX-Login: sup\r\n\r\n")
            held.set()
            self.assertTrue(other.recv(100).startswith(b"HTTP/1.1 200 "))
            self.assertLess(len(begun), 20)
            for page in pages:
                self.assertTrue(page.recv(100).startswith(b"HTTP/1.1 200 "))

    def sent(self, request):
        """A connection on which that was sent."""
        found = self.enterContext(socket.create_connection(("127.0.0.1", self.port), timeout=PATIENCE))
        found.sendall(request)
        return found

    def test_a_page_that_does_not_read(self):
        """It loses its stream, and nobody else waits."""
        with mock.patch.object(server, "MOST_UNREAD", 1000):
            reply, other = self.opened("sup"), self.opened("ana")
            self.next(other)
            stream = next(one for one in self.gate.following.streams.all if one.login == "sup")

            async def write():
                for _ in range(400):
                    stream.write("change", '"x":"' + "x" * 50000 + '"')

            self.standing.do(write())
            self.assertTrue(stream.pipe.is_gone())
            self.assertTrue(until(lambda: stream not in self.gate.following.streams.all, PATIENCE))
            self.assertEqual(self.next(other)[0], "beat")
        self.assertEqual([one.login for one in self.gate.following.streams.all], ["ana"])
        reply.close()

    def test_who_leaves(self):
        reply = self.opened("sup")
        self.next(reply)
        reply.close()
        self.assertTrue(until(lambda: not self.gate.following.streams.all and self.standing.server.open == 0, PATIENCE))


if __name__ == "__main__":
    unittest.main()
