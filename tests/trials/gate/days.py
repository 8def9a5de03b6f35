"""What the gate tells an agent of the day, against acd-calls and the exported reports, over a day with a midnight in the middle, in two zones."""
import asyncio
import csv
import datetime
import io
import os
import sys
import time
from collections import Counter, deque

from followed import Asked, following, office
from trial import TOP, Trial, ran

ZONES = ("UTC", "America/New_York")
EACH, MIDDLE = 20, 1800
DAY = datetime.date(2026, 11, 27)


class Days(Trial):
    def try_days(self):
        for zone in ZONES:
            os.environ["TZ"] = zone
            time.tzset()
            begin = int(datetime.datetime.combine(DAY, datetime.time()).timestamp()) - MIDDLE
            try:
                self.day(zone, [f"{begin + int(moment)} {request}" for moment, _, request in (line.partition(" ") for line in office())])
            finally:
                del os.environ["TZ"]
                time.tzset()

    def day(self, zone, lines):
        desk = self.enterContext(Asked(self.program))
        followers = [following.Following(desk.ask, lambda: int(desk.moment))]
        for number, line in enumerate(lines, 1):
            desk.say(line)
            if number % 800 == 0:
                followers.append(following.Following(desk.ask, lambda: int(desk.moment)))
            if number % EACH == 0 or number == len(lines):
                for follower in followers:
                    asyncio.run(follower.catch_up())
                    asyncio.run(follower.read_day())
        wanted = self.judged(zone, lines)
        for begun, follower in enumerate(followers):
            found = told(follower, int(desk.moment))
            self.see(f"{zone}: the days of {len(wanted)} agents, begun {begun}", found == {agent: counts for agent, (counts, _) in wanted.items()},
                     [(agent, found.get(agent), counts) for agent, (counts, _) in wanted.items() if found.get(agent) != counts][:3])
            for agent, (_, calls) in wanted.items():
                last = [(call["call"], call.get("caller"), call["talked"]) for call in follower.days.text(agent)["calls"]]
                known = [(number, caller if begun == 0 or one[1] else None, talked) for (number, caller, talked), one in zip(calls, last)]
                self.see(f"{zone}: the last calls of {agent}, begun {begun}", last == known and len(last) == len(calls), (last, calls))
        self.see("a day with calls, talks and missed offers", all(sum(counts[column] for counts, _ in wanted.values()) > 20 for column in range(3)), wanted)

    def judged(self, zone, lines):
        """The same by acd-calls, and by the exported reports what it doesn't tell."""
        file = self.folder / f"{zone.replace('/', '-')}.db"
        self.acd("lines", "--file", file, given="".join(f"{line}\n" for line in lines))
        by_file = [TOP / "service/bin/acd-calls", "--file", file]
        agents, calls = (rows([sys.executable, "-B", *by_file, *more]) for more in (["--agents"], []))
        callers = {int(call["number"]): call["caller"] for call in calls}
        begins = int(datetime.datetime.combine(DAY, datetime.time()).timestamp())
        answered, last, at, talks, reports = Counter(), {}, {}, {}, rows([self.program, "export", "--file", file])
        made = {report["call"] for report in reports if report["event"] == "serviceInitiated"}
        for report in reports:
            kind, device, now = report["event"], report["device"], int(report["moment"])
            if kind == "agentLoggedOn":
                at[device] = report["agent"]
            elif kind == "established":
                talks[report["call"], device] = now
                answered[at.get(device)] += (report["group"] != "" or report["call"] not in made) and now >= begins
            elif kind in ("diverted", "transferred", "connectionCleared") and (report["call"], device) in talks:
                since = talks.pop((report["call"], device))
                if now >= begins and device in at:
                    last.setdefault(at[device], deque(maxlen=5)).append((int(report["call"]), callers[int(report["call"])], now - since))
            if kind == "agentLoggedOff":
                del at[device]
        wanted = {}
        for line in agents:
            if line["day"] == str(DAY):
                agent = line["agent"]
                counts = answered[agent], int(line["talking"]), sum(int(line[name]) for name in ("rings_not_answered", "rings_refused", "rings_hung_up"))
                if any(counts) or agent in last:
                    wanted[agent] = counts, list(last.get(agent, ()))
        return wanted


def told(follower, moment):
    """Calls, seconds of talk with the running one's, and missed offers of each agent of whom there is something."""
    found = {}
    for agent in follower.state.agents.values():
        day = follower.days.text(agent.id)
        running = moment - max(day["talks"], follower.days.begins) if "talks" in day else 0
        counts = day["answered"], day["talking"] + running, day["missed"]
        if any(counts) or day["calls"]:
            found[agent.id] = counts
    return found


def rows(words):
    return list(csv.DictReader(io.StringIO(ran(*words).output)))
