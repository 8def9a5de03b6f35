"""Over a thousand agents' pages behind one address, each with a question that is held, over connections of their own and over a few of HTTP/2: they and all others of that address are answered."""
import asyncio
import itertools
import ssl
import statistics
import threading
import time
from base64 import b64encode
from collections import Counter

from place import PATIENCE, Place
from trial import ANY, until

# more than a thousand pages: some are open twice
PAGES, LOGINS, STREAMS, SERVICES, HOLD = 1300, 20, 100, 200, 10
OF_HTTP_2 = ssl.create_default_context()
OF_HTTP_2.check_hostname, OF_HTTP_2.verify_mode = False, ssl.CERT_NONE
OF_HTTP_2.set_alpn_protocols(["h2"])


def word(login):
    return f"Basic {b64encode(f'{login}:secret'.encode()).decode()}"


class Waits(Place):
    ROLES = {"pbx": "exchange", "sup": "supervisor", **{f"a{number}": f"agent agent={number}" for number in range(1, LOGINS + 1)}}

    def try_own_connections(self):
        self.hold(self.one_each)

    def try_shared_connections(self):
        self.hold(self.many_each)

    def hold(self, ask):
        """While the pages wait others of the address ask."""
        for number in range(LOGINS):
            self.ask("GET", "/who", login=f"a{number + 1}")
        after = self.settled()
        self.path, self.waiting, self.told, self.ended = f"/mine?after={after}&names={after}&hold={HOLD}", 0, Counter(), False
        pages = threading.Thread(target=lambda: asyncio.run(ask()))
        pages.start()
        try:
            self.see("all of them wait", until(lambda: self.waiting == PAGES, PATIENCE), self.waiting)
            statuses, took = self.others()
        finally:
            self.ended = True
            pages.join()
        self.expect("others are answered", statuses, {200})
        self.see("all pages too", set(self.told) == {200} and self.told[200] >= PAGES, self.told)
        print(f"    {PAGES} pages wait; {len(took)} requests of others: median {1000 * statistics.median(took):.0f} ms, most {1000 * max(took):.0f} ms")

    def settled(self):
        """The number of the last news, once the gate knows the desk's day and has no more."""
        numbers = [0, 1]
        while numbers[-1] != numbers[-2]:
            numbers.append(self.ask("GET", f"/mine?after={numbers[-1]}&names={numbers[-1]}&hold=3", login="a1").value["number"])
        return numbers[-1]

    def others(self):
        statuses, took = set(), []
        for number in range(SERVICES):
            began = time.monotonic()
            if number % 10 == 0:
                statuses.add(self.ask("GET", ("/snapshot", "/who", "/session")[number // 10 % 3], login="sup").status)
            else:
                statuses.add(self.request("pbx", "tick")[0])
            took.append(time.monotonic() - began)
        return statuses, took

    def answered(self, status):
        """Whether the page asks again, as pages do."""
        self.waiting -= 1
        self.told[status] += 1
        return status == 200 and not self.ended

    async def one_each(self):
        at_once = asyncio.Semaphore(20)

        async def page(login):
            async with at_once:
                reader, writer = await asyncio.open_connection("127.0.0.1", self.port, ssl=ANY)
            asks = True
            while asks:
                writer.write(f"GET {self.path} HTTP/1.1\r\nHost: desk\r\nAuthorization: {word(login)}\r\n\r\n".encode())
                self.waiting += 1
                head = (await reader.readuntil(b"\r\n\r\n")).lower()
                await reader.readexactly(int(head.partition(b"content-length: ")[2].partition(b"\r")[0]))
                asks = self.answered(int(head.split()[1]))
            writer.close()

        logins = itertools.cycle(f"a{number}" for number in range(1, LOGINS + 1))
        await asyncio.gather(*(page(next(logins)) for _ in range(PAGES)))

    async def many_each(self):
        logins = itertools.cycle(f"a{number}" for number in range(1, LOGINS + 1))
        await asyncio.gather(*(self.streams([next(logins) for _ in range(STREAMS)]) for _ in range(PAGES // STREAMS)))

    async def streams(self, logins):
        """Questions over one connection of HTTP/2."""
        # only here: no other part needs it
        from h2 import config, connection, events
        reader, writer = await asyncio.open_connection("127.0.0.1", self.port, ssl=OF_HTTP_2)
        one, asked, statuses = connection.H2Connection(config.H2Configuration()), {}, {}

        def ask(login):
            stream = one.get_next_available_stream_id()
            one.send_headers(stream, [(":method", "GET"), (":scheme", "https"), (":path", self.path), (":authority", "desk"), ("authorization", word(login))], end_stream=True)
            asked[stream] = login
            self.waiting += 1

        one.initiate_connection()
        for login in logins:
            ask(login)
        while asked:
            writer.write(one.data_to_send())
            for event in one.receive_data(await reader.read(65536)):
                if isinstance(event, events.ResponseReceived):
                    statuses[event.stream_id] = int(dict(event.headers)[b":status"])
                if isinstance(event, events.DataReceived):
                    one.acknowledge_received_data(event.flow_controlled_length, event.stream_id)
                if isinstance(event, (events.StreamEnded, events.StreamReset)):
                    login = asked.pop(event.stream_id)
                    if self.answered(statuses.get(event.stream_id)):
                        ask(login)
        writer.close()
