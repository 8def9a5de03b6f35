"""A stand-in for a desk that tells executed requests: it has the records that it is given, and may be silent, grow, begin late, or answer otherwise."""
import json
import urllib.parse

from trial.played import Handler, Played


class OfPages(Handler):
    def do_GET(self):
        server, (path, _, query) = self.server, self.path.partition("?")
        after = int(urllib.parse.parse_qs(query)["after"][0])
        server.asked.append(after)
        status, text = 200, server.answer and server.answer[1]
        if path != "/requests":
            status, text = 404, "{}"
        elif server.silent:
            server.silent -= 1
            status, text = 503, '{"error":{"code":33,"name":"noMemory"}}'
        elif server.answer:
            status = server.answer[0]
        else:
            text = server.page(after)
        self.answer(status, text)


class Pages(Played):
    def __init__(self, records):
        super().__init__(OfPages)
        self.records, self.asked, self.silent, self.answer, self.first, self.grows = records, [], 0, None, 1, 0

    def page(self, after):
        """Where it grows, all but so many are there at first, and more at each page."""
        known = self.records[:len(self.records) - self.grows]
        self.grows = max(self.grows - 300, 0)
        behind = known[0]["stamp"] if known else 1
        begin = max(after + 1, self.first) - behind
        found = known[max(begin, 0):max(begin, 0) + 1000]
        return json.dumps({"last": known[-1]["stamp"] if known else 0, "requests": found}, separators=(",", ":"))
