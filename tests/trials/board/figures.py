#!/usr/bin/python3
"""Reckons the figures of a day out of a desk's events, call by call and agent by agent: what a board has to show, written once more without looking at it.

usage: figures.py --desk PORT [--begin B] [--end E] [--groups 100,110] [--limit 20] [--limit-of 100=30]     (default: all events)

Prints them as JSON: of each group and of all chosen ones entered, answered, abandoned, moved, waited, within (answered within the limit), late (abandoned later), longest, handled and handling
(talk, hold, and the after-call work right behind it), and by the last stay in a queue answeredStay, abandonedStay, withinStay and lateStay, also by quarters of an hour; of each agent calls, missed, talk, work, ready and notReady, from the first event of the day on to E; and of each group since when the caller waits who waits longest, and for how many of its callers it rings whom somebody sent to an agent."""
import argparse
import json
import sys
from collections import defaultdict
from pathlib import Path

sys.path.append(str(Path(__file__).resolve().parents[1]))
from trial import Connection  # noqa: E402

QUARTER = 900
SPENT = {"agentBusy": "talk", "agentWorkingAfterCall": "work", "agentReady": "ready", "agentNotReady": "notReady", "agentLoggedOn": "notReady"}


def events_of(port):
    found, after = [], 0
    while True:
        with Connection(port) as connection:
            page = connection.ask("GET", f"/history?after={after}").value
        found += page["events"]
        if not page["events"] or found[-1]["number"] >= page["last"]:
            return found
        after = found[-1]["number"]


def logged_on(events):
    """Of each station the numbers of the events from which on somebody is logged on there, or nobody any more."""
    found = defaultdict(list)
    for event in events:
        if "agent" in event:
            found[event["device"]].append((event["number"], event["event"] != "agentLoggedOff"))
    return found


def is_there(told, station, number):
    """Whether somebody is logged on at the station then; whose first event isn't a log-on was there before."""
    earlier = [there for when, there in told[station] if when < number]
    return earlier[-1] if earlier else any(told[station][:1]) and not told[station][0][1]


def courses(events):
    """Of each call where its caller was, one place after the other: in a group's queue, rung for at an agent's station or at one without anybody, in a talk, gone."""
    told, of_call = logged_on(events), defaultdict(list)
    for event in events:
        if "call" in event:
            of_call[event["call"]].append(event)
    for happened in of_call.values():
        is_inside, places = any(event["event"] == "serviceInitiated" for event in happened), []
        for event in happened:
            kind, device = event["event"], event.get("device")
            if kind == "queued" and event["cause"] != "noAnswer":
                places.append(("queue", device, event["moment"]))
            elif kind == "delivered" and "group" not in event and places:
                is_person = not is_inside and is_there(told, device, event["number"])
                places.append(("person" if is_person else "nobody", device, event["moment"]))
            elif kind == "established" and places and ("group" in event or is_there(told, device, event["number"]) or places[-1][0] == "person"):
                places.append(("talk", device, event["moment"]))
            elif kind == "callCleared":
                places.append(("gone", None, event["moment"]))
        yield happened[0]["call"], is_inside, places


def waits(events):
    """Each wait from a first entrance on: (call, group, whether it was answered or abandoned, or left all groups, when it ended, seconds, and those of the last stay in a queue, if it ended
    there)."""
    for call, is_inside, places in courses(events):
        begin = stay = group = left = None
        for (kind, where, moment), before in zip(places, [(None, None, None), *places]):
            if kind == "queue":
                group, stay = where, moment
            if kind in ("talk", "gone") and begin is not None:
                counts = before[0] in ("queue", "person") or kind == "talk" and not is_inside
                how = {"talk": "answered", "gone": "abandoned"}[kind] if counts else "left"
                yield call, group, how, moment, (moment if counts else left) - begin, moment - stay if before[0] == "queue" else None
                begin = None
            elif kind not in ("talk", "gone"):
                begin, left = (moment, None) if begin is None else (begin, left)
                left = None if kind != "nobody" else moment if left is None else left


def alarms(events, now, limit, goal=80, lost=5, alone=False):
    """By groups what ended in the last half hour, and since when the level and those who give up are an alarm, or nothing: each second in which that may change is looked at by itself."""
    ended = defaultdict(list)
    for _, group, how, moment, seconds, _ in waits(events):
        if how != "left" and moment <= now:
            ended[group].append((moment, how, seconds))
    found = {}
    for group, all_of_it in ended.items():
        since = {"level": None, "lost": None}
        for second in sorted({at for moment, _, _ in all_of_it for at in (moment, moment + 1800) if at <= now} | {now}):
            here = [(how, seconds > limit) for moment, how, seconds in all_of_it if second - 1800 < moment <= second]
            answered, within = sum(how == "answered" for how, _ in here), sum(how == "answered" and not is_late for how, is_late in here)
            gave_up, late = len(here) - answered, sum(how == "abandoned" and is_late for how, is_late in here)
            of = answered if alone else answered + late
            is_bad = {"level": answered + late >= 10 and of > 0 and 100 * within / of < goal - 15, "lost": len(here) >= 10 and 100 * gave_up / len(here) > 2 * lost}
            since = {name: (second if since[name] is None else since[name]) if is_bad[name] else None for name in since}
        found[group] = [answered, gave_up, within, late, since["level"], since["lost"]]
    return found


def waiting(events):
    """By groups since when the caller waits who waits longest in the queue, or is rung for by it or at an agent to whom somebody sent the caller; and how many these are."""
    found, sent = {}, defaultdict(int)
    for _, _, places in courses(events):
        if places and places[-1][0] in ("queue", "person"):
            talks = [place for place, (kind, *_) in enumerate(places) if kind == "talk"]
            begin, group = places[talks[-1] + 1 if talks else 0][2], [device for kind, device, _ in places if kind == "queue"][-1]
            found[group] = min(begin, found.get(group, begin))
            sent[group] += places[-1][0] == "person"
    return found, {group: count for group, count in sent.items() if count}


def talks(events):
    """Each talk of an agent with a caller from outside whom no group gave the agent: (agent, call, group that the caller came from, number and moment of its begin, and of its end or nothing)."""
    at, of_call, found = {}, defaultdict(list), []
    for event in events:
        if "agent" in event:
            at[event["device"]] = event["agent"] if event["event"] != "agentLoggedOff" else None
            if event["event"] == "agentLoggedOff":
                for one in found:
                    if one["device"] == event["device"] and one["end"] is None:
                        one["end"] = event["number"], event["moment"]
            continue
        before = of_call[event["call"]]
        before.append(event)
        is_outside = all(one["event"] != "serviceInitiated" for one in before)
        if event["event"] == "established" and "group" not in event and is_outside and at.get(event["device"]):
            groups = [one["device"] for one in before if one["event"] == "queued"]
            found.append({"agent": at[event["device"]], "call": event["call"], "device": event["device"], "group": groups[-1] if groups else None,
                          "begin": (event["number"], event["moment"]), "end": None})
        elif event["event"] in ("diverted", "transferred", "connectionCleared"):
            for one in found:
                if (one["call"], one["device"], one["end"]) == (event["call"], event["device"], None):
                    one["end"] = event["number"], event["moment"]
    return found


def hung_up(events):
    """Each offer, or ring of a caller from outside, that was ended at the agent's station: (agent, when)."""
    at, rings, made, clearing = {}, {}, set(), set()
    for event in events:
        kind, call, device = event["event"], event.get("call"), event.get("device")
        if "agent" in event:
            at[device] = event["agent"] if kind != "agentLoggedOff" else None
        elif kind == "serviceInitiated":
            made.add(call)
        elif kind == "delivered":
            rings[call, device] = "group" in event
        elif kind == "connectionCleared" and call not in clearing:
            clearing.add(call)
            if (call, device) in rings and at.get(device) and (rings[call, device] or call not in made):
                yield at[device], event["moment"]
        if kind in ("established", "diverted", "transferred"):
            rings.pop((call, device), None)


def periods(events, begin, end):
    """Each period of an agent: (agent, the event that began it, its begin, its end, the group whose call it was taken for, whether an offer was missed just before)."""
    of_agent, answers, offers = defaultdict(list), {}, set()
    for event in events:
        if event["event"] == "established" and "group" in event:
            answers[event["device"]] = event["group"]
        if event["event"] == "diverted" and event["cause"] == "noAnswer":
            offers.add(event["device"])
        if "agent" in event:
            answered, missed = answers.pop(event["device"], None), event["device"] in offers
            group = answered if event["event"] == "agentBusy" else None
            offers.discard(event["device"])
            if event["moment"] >= begin:
                of_agent[event["agent"]].append((event["event"], event["moment"], group, missed))
    for agent, told in of_agent.items():
        for (kind, moment, group, missed), after in zip(told, [*(one[1] for one in told[1:]), None]):
            yield agent, kind, moment, end if after is None else after, group, missed, after is None


def done(events, begin):
    """Each call that an agent is done with whom somebody sent to the agent: (group, when, seconds). After-call work in which the agent is at its end belongs to it, where it belongs to no other
    call and no other talk goes on."""
    of_agent = defaultdict(list)
    for event in events:
        if "agent" in event and event["moment"] >= begin:
            of_agent[event["agent"]].append((event["number"], event["moment"], event["event"], None))
    for one in talks(events):
        if one["begin"][1] >= begin:
            of_agent[one["agent"]] += [(*one["begin"], "begin", one), *([(*one["end"], "end", one)] if one["end"] else [])]
    for told in of_agent.values():
        going, states, last = set(), [], None
        # a talk that a log-off ends goes by the state that the agent has by then
        for _, moment, kind, one in sorted(told, key=lambda each: (each[0], each[3] is not None)):
            if kind == "begin":
                going.add(one["call"])
            elif kind == "end":
                going.discard(one["call"])
                is_others = last is not None or states[-2:-1] == ["agentBusy"]
                if one["group"] and states[-1:] == ["agentWorkingAfterCall"] and not going and not is_others:
                    last = one
                elif one["group"]:
                    yield one["group"], moment, moment - one["begin"][1]
            else:
                if last is not None:
                    yield last["group"], moment, moment - last["begin"][1]
                states, last = [*states, kind], None


def handlings(events, begin, end):
    """Each call that an agent is done with whom the desk gave it: (group, when, seconds)."""
    told = defaultdict(list)
    for agent, kind, moment, until, group, _, is_last in periods(events, begin, end):
        told[agent].append((kind, moment, until, group, is_last))
    for line in told.values():
        for place, (kind, moment, until, group, is_last) in enumerate(line):
            if kind != "agentBusy" or not group or is_last:
                continue
            behind = line[place + 1]
            if behind[0] != "agentWorkingAfterCall":
                yield group, until, until - moment
            elif not behind[4]:
                yield group, behind[2], behind[2] - moment


def reckoned(events, begin, end, limits, limit, chosen):
    groups, quarters, agents = defaultdict(lambda: defaultdict(int)), defaultdict(lambda: defaultdict(int)), defaultdict(lambda: defaultdict(int))

    def count(group, moment, **figures):
        names = [group, "all"] if not chosen or group in chosen else [group]
        for place in [groups[name] for name in names] + [quarters[f"{name} {moment // QUARTER * QUARTER}"] for name in names]:
            for name, value in figures.items():
                place[name] = max(place[name], value) if name == "longest" else place[name] + value

    for event in events:
        if begin <= event["moment"] < end and event["event"] == "queued" and event["cause"] != "noAnswer":
            count(event["device"], event["moment"], entered=1)
        elif begin <= event["moment"] < end and event.get("cause") == "deflected" and event["event"] == "diverted" and "group" in event:
            count(event["group"], event["moment"], moved=1)
    for _, group, how, moment, waited, stay in waits(events):
        within = limits.get(group, limit)
        if how != "left" and begin <= moment < end:
            count(group, moment, **{how: 1})
            if how == "answered":
                count(group, moment, waited=waited, within=int(waited <= within), longest=waited)
            else:
                count(group, moment, late=int(waited > within))
            if stay is not None:
                count(group, moment, **{f"{how}Stay": 1, **({"withinStay": int(stay <= within)} if how == "answered" else {"lateStay": int(stay > within)})})
    for group, moment, seconds in [*handlings(events, begin, end), *done(events, begin)]:
        if moment < end:
            count(group, moment, handled=1, handling=seconds)
    beside = defaultdict(list)
    for one in talks(events):
        if begin <= one["begin"][1] < end:
            beside[one["agent"]].append((one["begin"][1], end if one["end"] is None else min(end, one["end"][1])))
            agents[one["agent"]]["calls"] += 1
    for agent, spans in beside.items():
        agents[agent]["talk"] += covered(spans)
    for agent, kind, moment, until, group, missed, _ in periods(events, begin, end):
        line = agents[agent]
        line["missed"] += missed
        line["calls"] += kind == "agentBusy" and group is not None
        if kind in SPENT:
            # what is talk is nothing else
            line[SPENT[kind]] += until - moment - covered([(max(first, moment), min(last, until)) for first, last in beside[agent]])
    for agent, moment in hung_up(events):
        agents[agent]["missed"] += begin <= moment < end
    longest, sent = waiting(events)
    return {"groups": groups, "quarters": quarters, "agents": agents, "waiting": longest, "sent": sent, "last": events[-1]["number"]}


def covered(spans):
    """The seconds in at least one of these spans."""
    seconds = last = 0
    for first, until in sorted(spans):
        seconds += max(0, until - max(first, last))
        last = max(last, until)
    return seconds


def main():
    parser = argparse.ArgumentParser(description=__doc__, formatter_class=argparse.RawDescriptionHelpFormatter)
    parser.add_argument("--desk", type=int, required=True)
    parser.add_argument("--begin", type=int, default=0)
    parser.add_argument("--end", type=int)
    parser.add_argument("--groups", default="")
    parser.add_argument("--limit", type=int, default=20)
    parser.add_argument("--limit-of", action="append", default=[])
    options = parser.parse_args()
    events = events_of(options.desk)
    end = options.end or events[-1]["moment"] + 1
    limits = {group: int(seconds) for group, seconds in (one.split("=") for one in options.limit_of)}
    print(json.dumps(reckoned(events, options.begin, end, limits, options.limit, set(filter(None, options.groups.split(","))))))


if __name__ == "__main__":
    main()
