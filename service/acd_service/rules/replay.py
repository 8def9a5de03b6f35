"""What rules would do: now, or for the last day of a file. Tested, not proved."""
from collections import Counter
from collections.abc import Iterator
from typing import Any

from acd_service.book import Book, identifier
from acd_service.rules.judging import Move, judged
from acd_service.rules.picture import Picture
from acd_service.rules.reading import Rule, Rules, When

DAY, MINUTE = 86400, 60


def of_now(rules: Rules, picture: Picture, now: int) -> Iterator[str]:
    """A line for each group, and one for each call of which a rule holds."""
    queues = picture.queues()
    for group, has in rules.items():
        state = "" if has.hours is None else "closed, " if has.is_closed(now) else "open, "
        yield f"group {group}: {state}{len(queues[group])} waiting"
    for move in judged(rules, picture, {}, now):
        yield f"call {move.call} in {move.rule.group}, {move.rule.name}: {move.rule.does()}"


# The last day of a file

def numbered(book: Book) -> Iterator[dict[str, Any]]:
    """The events of a file in the form of reports; each log-on names its groups, which the kept requests have."""
    log_ons = book.log_ons()
    for number, event in enumerate(book.events(), 1):
        members = {name: value for name, value in event._asdict().items() if value is not None}
        found = {"number": number, "event": members.pop("kind"), **members}
        yield found | ({"groups": next(log_ons, [])} if event.kind == "agentLoggedOn" else {})


def rules_in_order(rules: Rules) -> Iterator[Rule]:
    for has in rules.values():
        yield from has.rules


class Replay:
    """Goes through a file's events, and takes each caller out of the picture whom a rule would have moved: what would
    have become of the caller there, nobody knows."""

    def __init__(self, rules: Rules, book: Book) -> None:
        self.rules, self.book, self.picture = rules, book, Picture()
        self.picture.groups = {}
        for device, in book.rows.execute("SELECT device FROM acd_groups"):
            self.picture.assign("", [identifier(device)])
        for group in self.picture.groups.values():
            group.agents.clear()
        self.picture.stations = dict.fromkeys(identifier(device)
                                              for device, in book.rows.execute("SELECT device FROM stations"))
        # in which groups they were logged on isn't in the file
        self.picture.stations |= book.logged_on_before()
        self.picture.unknown = dict.fromkeys(book.logged_on_before().values(), 0)
        self.begin, self.gone = book.last_moment() - DAY, set[int]()
        self.counts: Counter[str] = Counter()

    def run(self) -> Counter[str]:
        """How many callers each rule would have moved, by its name."""
        now = 0
        for event in numbered(self.book):
            if event["moment"] > now:
                self.judge_between(now, event["moment"])
                now = event["moment"]
            if event.get("call") not in self.gone:
                self.take(event)
        self.judge_between(now, self.book.last_moment() + 1)
        return self.counts

    def take(self, event: dict[str, Any]) -> None:
        self.picture.apply(event)
        if event["event"] == "agentLoggedOn":
            self.picture.assign(event["agent"], event["groups"])

    def judge_between(self, begin: int, end: int) -> None:
        """From one moment on up to another, which isn't in it."""
        begin = max(begin, self.begin)
        for moment in sorted({begin, *self.dues(begin, end)}) if begin < end else ():
            for move in list(judged(self.rules, self.picture, {}, moment)):
                self.move(move)

    def dues(self, begin: int, end: int) -> Iterator[int]:
        """The moments in between at which a rule may begin to hold without an event."""
        queues = self.picture.queues()
        for rule in rules_in_order(self.rules):
            if not queues[rule.group]:
                continue
            found: Iterator[int] | range = iter(())
            if rule.when is When.LONG:
                found = (call.entered + rule.limit for call in queues[rule.group] if call.entered is not None)
            elif rule.when is When.NOBODY:
                found = iter((self.picture.groups[rule.group].empty_since + rule.limit,))
            elif rule.when is When.CLOSED:
                found = range(begin - begin % MINUTE, end, MINUTE)
            yield from (moment for moment in found if begin < moment < end)

    def move(self, move: Move) -> None:
        self.counts[move.rule.name] += 1
        self.gone.add(move.call)
        del self.picture.calls[move.call]


def of_last_day(rules: Rules, book: Book) -> Iterator[str]:
    """A line for each rule."""
    counts = Replay(rules, book).run()
    for rule in rules_in_order(rules):
        callers = "1 caller" if counts[rule.name] == 1 else f"{counts[rule.name]} callers"
        yield f"{rule.name}: {callers} {rule.does()}"
