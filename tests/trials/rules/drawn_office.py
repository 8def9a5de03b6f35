"""An office of three groups, drawn at random, and who of its callers must be moved when: reckoned from what the desk shows after each request, by the clocks of the C library."""
import os
import random
import time

from trial import Plan

GROUPS, BOXES, STATIONS, AGENTS = ("100", "110", "120"), ("298", "299"), ("201", "202", "203", "204"), ("1", "2", "3", "4")
PLAN = Plan(groups=list(GROUPS), stations=[*STATIONS, *BOXES], agents=list(AGENTS))
ZONES = ("Europe/Berlin", "America/New_York", "UTC", "Asia/Kolkata", "Australia/Lord_Howe")
WEEKDAYS = ("mon", "tue", "wed", "thu", "fri", "sat", "sun")
# noon, UTC: of a February 29, of the days on which Berlin's, New York's and Lord Howe's clocks change, and of the first day of a year that others are drawn from
NOON = [1835438400, 1837684800, 1836475200, 1856433600, 1857038400, 1837857600, 1854273600]
FIRST = 1798804800
MINUTE, HOUR, DAY = 60, 3600, 86400


def time_of(minutes):
    return f"{minutes // 60:02}:{minutes % 60:02}"


class Office:
    """`hours` are minutes by weekday, `dates` those of days that differ; `rules` are, by group, tuples of name, kind, limit and target, None for an end."""

    def __init__(self, seed):
        self.draw = random.Random(seed)
        self.zone = self.draw.choice(ZONES)
        noon = self.draw.choice(NOON) if self.draw.random() < 0.5 else FIRST + DAY * self.draw.randrange(730) + 12 * HOUR
        self.begin = noon + self.draw.randrange(-12 * HOUR, 10 * HOUR)
        self.hours = [self.spans() for _ in WEEKDAYS]
        self.dates = {time.strftime("%Y-%m-%d", time.gmtime(noon)): self.spans()} if self.draw.random() < 0.4 else {}
        self.rules = {group: self.drawn(group) for group in self.draw.sample(GROUPS, self.draw.randint(1, 3))}

    def spans(self):
        """Of the hours around the beginning, so that something opens or closes meanwhile."""
        times = sorted(self.draw.sample(range(0, 24 * 60 + 1, 10), 2 * self.draw.randint(0, 3)))
        return list(zip(times[::2], times[1::2]))

    def drawn(self, group):
        kinds = [self.draw.choice(("closed", "nobody", "full", "long")) for _ in range(self.draw.randint(1, 4))]
        found = []
        for number, kind in enumerate(kinds):
            limit = {"closed": 0, "full": self.draw.randint(0, 4)}.get(kind, self.draw.choice((0, 5, 30, 120)))
            found.append((f"{group}-{number}", kind, limit, self.draw.choice([None, *BOXES, *(one for one in GROUPS if one != group)])))
        return found

    def text(self):
        """rules.toml."""
        def listed(spans):
            return "[" + ", ".join(f'"{time_of(begin)}-{time_of(end)}"' for begin, end in spans) + "]"

        lines = [f'zone = "{self.zone}"', "[hours]", *(f"{name} = {listed(spans)}" for name, spans in zip(WEEKDAYS, self.hours)), "[days]",
                 *(f"{name} = {listed(spans)}" for name, spans in self.dates.items())]
        for group, rules in self.rules.items():
            lines += [f"[groups.{group}]", "rules = ["]
            for name, kind, limit, to in rules:
                member = {"closed": "", "full": f"calls = {limit}, "}.get(kind, f"seconds = {limit}, ")
                target = f'to = "{to}"' if to else "end = true"
                lines.append(f'    {{name = "{name}", when = "{kind}", {member}{target}}},')
            lines.append("]")
        return "\n".join(lines) + "\n"

    def is_open(self, moment):
        os.environ["TZ"] = self.zone
        time.tzset()
        there = time.localtime(moment)
        minute = 60 * there.tm_hour + there.tm_min
        return any(begin <= minute < end for begin, end in self.dates.get(time.strftime("%Y-%m-%d", there), self.hours[there.tm_wday]))


class Reckoning:
    """What the desk showed after each request so far. `known` are, by rule and call, how many of its tries were refused, and whether the rule has moved the call."""

    def __init__(self, office):
        self.office, self.known = office, {}
        self.entered, self.groups, self.talks, self.empty, self.logged_off, self.shown = {}, {}, {}, dict.fromkeys(GROUPS, 0), 0, None

    def see(self, snapshot):
        moment = snapshot["moment"]
        staffed = {one["device"] for one in snapshot["stations"] if "agent" in one}
        for call in snapshot["calls"]:
            number, talks = call["call"], {one["device"] for one in call["connections"] if one["state"] in ("connected", "hold")}
            # who is answered where an agent is logged on has waited
            if staffed & (talks - self.talks.get(number, set())):
                self.entered.pop(number, None)
            self.talks[number] = talks
            for one in call["connections"]:
                group = one["device"] if one["state"] == "queued" else one.get("group")
                if group:
                    self.groups.setdefault(number, set()).add(group)
                if group and one["device"] not in talks:
                    self.entered.setdefault(number, moment)
        there = {group for agent in snapshot["agents"] for group in agent.get("groups", [agent["group"]] if "group" in agent else [])}
        for group in GROUPS:
            if group in there:
                self.empty[group] = None
            elif self.empty[group] is None:
                self.empty[group] = moment
        if self.shown and any("device" in was and "device" not in now for was, now in zip(self.shown["agents"], snapshot["agents"])):
            self.logged_off = moment
        self.shown = snapshot

    def queue(self, group):
        found = [(one["place"], call["call"]) for call in self.shown["calls"] for one in call["connections"] if one["state"] == "queued" and one["device"] == group]
        return [call for _, call in sorted(found)]

    def holds(self, group, call, kind, limit, now, empty_since):
        if kind == "closed":
            return not self.office.is_open(now)
        if kind == "nobody":
            return self.empty[group] is not None and now >= max(self.empty[group], empty_since) + limit
        if kind == "full":
            return self.queue(group).index(call) >= limit
        return now >= self.entered[call] + limit

    def is_able(self, call, to):
        if to is None or to in GROUPS:
            return to is None or to not in self.groups[call]
        busy = any(one["device"] == to and one["state"] != "fail" for each in self.shown["calls"] for one in each["connections"])
        return not busy and not any(station["device"] == to and "agent" in station for station in self.shown["stations"])

    def is_right(self, request, now, has_changed):
        """Whether a rule may ask for this now, if its call waits there; where somebody ahead of it has been offered to an agent since it was judged, whether it held isn't asked."""
        name, try_number = request["requester"].removeprefix("rules-").rsplit("-", 1)
        group, call = request["device"], request["call"]
        refused, is_over = self.known.get((name, call), (0, False))
        if call not in self.queue(group):
            return "another one was faster"
        rule = next(each for each in self.office.rules[group] if each[0] == name)
        is_same = request.get("to") == rule[3] and (request["service"] == "clearConnection") == (rule[3] is None) and request["invoke"] == call
        is_kept = is_over or int(try_number) <= refused
        holds = has_changed or self.holds(group, call, rule[1], rule[2], now, 0)
        return is_same and (is_kept or int(try_number) == refused + 1 and holds and self.is_able(call, rule[3]))

    def forgotten(self, now, empty_since):
        """Calls that wait although a rule holds of them that could be carried out and hasn't moved its call before."""
        return [(call, rule) for group, rules in self.office.rules.items() for call in self.queue(group) for rule in rules
                if not self.known.get((rule[0], call), (0, False))[1] and self.holds(group, call, rule[1], rule[2], now, empty_since) and self.is_able(call, rule[3])]

    def dues(self):
        """The moments at which a rule may begin to hold of one who waits now."""
        for group, rules in self.office.rules.items():
            for _, kind, limit, _ in rules:
                for call in self.queue(group):
                    yield {"long": self.entered[call] + limit, "nobody": (self.empty[group] or 0) + limit}.get(kind, 0)
