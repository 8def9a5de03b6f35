"""The alarms of a help line, by what the gate tells boards: the same facts as on the board. Tested, not proved."""
from collections.abc import Iterator, Mapping
from dataclasses import dataclass, field
from typing import Any

from acd_service.office import Office, seconds

# seconds: that clocks may be apart, and that what a tick ends may last longer than its group gives
APART, GRACE = 60, 25
# as on the board, where an office says nothing else
USUAL = {"long": 60.0, "bad": 120.0, "ringing": 15.0}
TABLES = ("groups", "agents", "calls", "recent", "desk")
Line = dict[str, Any]


@dataclass(frozen=True)
class Alarm:
    """`since` is 0 where the figures don't show it; `caller` is the number of who waits, or rings."""
    kind: str
    words: str
    group: str = ""
    since: int = 0
    caller: str = ""

    @property
    def key(self) -> str:
        return f"{self.kind}.{self.group}" if self.group else self.kind


@dataclass
class Picture:
    """The tables that boards are told, and whether the desk answers."""
    tables: dict[str, dict[str, Any]] = field(default_factory=lambda: {name: {} for name in TABLES})
    live: bool = False
    clock: float = 0.0

    def take(self, told: Mapping[str, Any], is_whole: bool) -> None:
        """What was told, in place of all or as a change; null is for what is gone."""
        self.live, self.clock = bool(told.get("live")), float(told.get("clock", 0))
        for name, table in self.tables.items():
            if is_whole:
                table.clear()
            for key, line in told.get(name, {}).items():
                if line is None:
                    table.pop(key, None)
                else:
                    table[key] = line

    @property
    def moment(self) -> int:
        """The desk's, which may be ahead."""
        return int(self.tables["desk"].get("moment", 0))

    @property
    def now(self) -> float:
        return max(self.moment, self.clock)


class Reckoning:
    """By an office's limits and names."""

    def __init__(self, office: Office) -> None:
        self.office = office

    def limit(self, name: str, group: str = "") -> float:
        limits = self.office.limits
        own = seconds(limits.get(f"{name}.{group}")) if group else None
        return own or seconds(limits.get(name)) or USUAL[name]

    def name(self, group: str, line: Line) -> str:
        return self.office.names["groups"].get(group) or str(line.get("name") or group)

    def alarms(self, picture: Picture) -> dict[str, Alarm]:
        """All that there are, by their keys."""
        return {alarm.key: alarm for alarm in self.found(picture)}

    def found(self, picture: Picture) -> Iterator[Alarm]:
        ahead = picture.moment - picture.clock
        if ahead > APART:
            yield Alarm("clock", f"The desk's time is {ahead:.0f} s ahead of the clock")
        else:
            yield from self.ticks(picture)
        for group, line in picture.tables["groups"].items():
            yield from self.of_group(picture, group, line)

    def ticks(self, picture: Picture) -> Iterator[Alarm]:
        """Something that a tick should have ended."""
        groups = picture.tables["groups"]
        lasts = [(line["since"], groups.get(line.get("group"), {}).get("ring", 0))
                 for line in picture.tables["calls"].values()
                 if line.get("state") == "alerting" and line.get("group") and not line.get("direct")]
        lasts += [(line["since"], groups.get(next(iter(line.get("groups", [])), ""), {}).get("wrap", 0))
                  for line in picture.tables["agents"].values() if line.get("doing") == "workingAfterCall"]
        late = [since + given for since, given in lasts if given and picture.now - since > given + GRACE]
        if late:
            yield Alarm("ticks", "Calls ring on without an end, or after-call work: nothing ticks", since=min(late))

    def of_group(self, picture: Picture, group: str, line: Line) -> Iterator[Alarm]:
        name, waiting, now = self.name(group, line), line.get("waiting", 0), picture.now
        if waiting and not sum(line.get("counts", {}).values()):
            yield Alarm("nobody", f"{name}: {waiting} wait, and nobody is logged on", group)
        yield from self.sent(picture, group, name)
        bad = max(self.limit("long", group), self.limit("bad", group))
        if (waiting or line.get("ringing")) and now - line.get("queued", now) >= bad:
            yield Alarm("wait", f"{name}: a caller waits too long", group, int(line["queued"] + bad),
                        caller_of(picture, group))
        *_, level, lost = picture.tables["recent"].get(group, (None, None))
        if lost is not None:
            yield Alarm("lost", f"{name}: too many gave up in the last half hour", group, lost)
        if level is not None:
            yield Alarm("level", f"{name}: too few were answered in time in the last half hour", group, level)

    def sent(self, picture: Picture, group: str, name: str) -> Iterator[Alarm]:
        """A caller who was sent to an agent rings there, and no tick takes that back."""
        limit = self.limit("ringing")
        rings = [call for call in picture.tables["calls"].values()
                 if call.get("group") == group and call.get("direct") and call.get("state") == "alerting"]
        first = min(rings, key=lambda call: int(call.get("since", 0)), default=None)
        if first is not None and picture.now - first["since"] > limit:
            yield Alarm("sent", f"{name}: nobody at {first.get('at')} answers a caller who was sent there", group,
                        int(first["since"] + limit), first.get("caller", ""))


def caller_of(picture: Picture, group: str) -> str:
    """Who waits longest in a group, in the queue or ringing for it."""
    waits = [(call.get("queued") or call.get("since", 0), call.get("caller", ""))
             for call in picture.tables["calls"].values()
             if call.get("group") == group and call.get("state") in ("queued", "alerting")]
    return min(waits, default=(0, ""))[1]
