"""The desk's file and what is told of it, as docs/USING.md has them, of the switch in tests/switch.py.

`rows` gives each table's rows with the numbers that stand for states, kinds, causes, devices and agents; `lay` makes a
database of them with texts of its own, by stock SQLite, and `held` reads such rows out of a file. `told` is the text of a
read, and `report` that of the queue report. Nothing here is taken from the verified program."""
import csv
import io
import sqlite3

from switch import compact, order

AGENT_STATES = {"null": 0, "notReady": 1, "ready": 2, "busy": 3, "workingAfterCall": 4}
PENDING = {"loggedOff": 0, "notReady": 1, "ready": 2, "workingAfterCall": 4}
CONNECTION_STATES = {"initiated": 1, "alerting": 2, "connected": 3, "hold": 4, "queued": 5, "fail": 6}
KINDS = {name: number for number, name in enumerate(
    ["serviceInitiated", "originated", "queued", "delivered", "diverted", "established", "held", "retrieved", "transferred", "failed",
     "connectionCleared", "callCleared", "agentLoggedOn", "agentLoggedOff", "agentNotReady", "agentReady", "agentBusy",
     "agentWorkingAfterCall"], 1)}
CAUSES = {"newCall": 1, "distributed": 2, "deflected": 3, "transferred": 4, "noAnswer": 5, "busy": 6}

WHOLE = "INTEGER NOT NULL"
TABLES = {
    "meta": f"id {WHOLE} PRIMARY KEY CHECK (id = 1), version {WHOLE}, " + ", ".join(f"{name} {WHOLE}" for name in [
        *(f"max_{name}" for name in ["requests", "calls", "groups", "stations", "agents", "monitors"]),
        *(f"last_{name}" for name in ["stamp", "moment", "call", "monitor", "event"])]),
    "acd_groups": f"device {WHOLE} PRIMARY KEY, name TEXT NOT NULL, ring {WHOLE}, wrap {WHOLE}, entered {WHOLE}, answered {WHOLE}, "
                  f"abandoned {WHOLE}, moved {WHOLE}, waited {WHOLE}",
    "stations": f"device {WHOLE} PRIMARY KEY",
    "agents": f"agent {WHOLE} PRIMARY KEY, name TEXT NOT NULL, state {WHOLE} CHECK (state BETWEEN 0 AND 4), pending INTEGER, "
              f"station INTEGER UNIQUE REFERENCES stations, grp INTEGER REFERENCES acd_groups, stamp {WHOLE}, since {WHOLE}",
    "calls": f"call {WHOLE} PRIMARY KEY, caller {WHOLE}, called {WHOLE}, since {WHOLE}",
    "connections": f"call {WHOLE} REFERENCES calls, device {WHOLE}, state {WHOLE} CHECK (state BETWEEN 1 AND 6), "
                   "grp INTEGER REFERENCES acd_groups, place INTEGER, queued INTEGER, offered INTEGER, PRIMARY KEY (call, device)",
    "monitors": f"monitor {WHOLE} PRIMARY KEY, device {WHOLE}, after_event {WHOLE}",
    "events": f"number {WHOLE} PRIMARY KEY, moment {WHOLE}, kind {WHOLE} CHECK (kind BETWEEN 1 AND 18), device INTEGER, call INTEGER, "
              "agent INTEGER, grp INTEGER, target INTEGER, cause INTEGER, waited INTEGER",
    "kept": f"stamp {WHOLE} PRIMARY KEY, requester TEXT NOT NULL, invoke {WHOLE}, moment {WHOLE}, request TEXT NOT NULL, status {WHOLE}, "
            "body TEXT NOT NULL, UNIQUE (requester, invoke)",
    "agent_groups": f"agent {WHOLE} REFERENCES agents, grp {WHOLE} REFERENCES acd_groups, PRIMARY KEY (agent, grp)",
    "group_priority": f"device {WHOLE} PRIMARY KEY REFERENCES acd_groups, priority {WHOLE} CHECK (priority BETWEEN 1 AND 9)",
}


def number(digits):
    """The number of a device or an agent, or NULL."""
    return None if digits is None else order(digits)


def agent_rows(switch):
    return [(number(agent), it.name, AGENT_STATES[it.state], None if it.pending is None else PENDING[it.pending], number(it.station),
             number(it.groups[0]) if it.groups else None, it.stamp, it.since) for agent, it in switch.agents.items()]


def connection_rows(switch):
    return [(call, number(device), CONNECTION_STATES[it.state], number(it.group), it.place, it.queued, it.offered)
            for call, record in switch.calls.items() for device, it in record.connections.items()]


def event_rows(switch):
    return [(it["number"], it["moment"], KINDS[it["event"]], number(it.get("device")), it.get("call"), number(it.get("agent")),
             number(it.get("group")), number(it.get("to")), CAUSES[it["cause"]] if "cause" in it else None, it.get("waited"))
            for it in switch.events]


def request_text(requester, invoke, service, members):
    """The request as it is kept: a log-on names its groups by `group` where it is one."""
    members = dict(members)
    if len(members.get("groups", [])) == 1:
        members["group"] = members.pop("groups")[0]
    return compact({"requester": requester, "invoke": invoke, "service": service, **members})


def kept_rows(desk):
    """The desk has noted the moment of each executed request."""
    rows = []
    for (key, (request, reply)), moment in zip(desk.kept.items(), desk.moments, strict=True):
        status, body = reply.split(" ", 1)
        rows.append((len(rows) + 1, *key, moment, request_text(*key, *request), int(status), body))
    return rows


def rows(desk):
    """The rows of each table, in ascending key."""
    switch = desk.switch
    found = {
        "meta": [(1, 2, *switch.limits.values(), switch.stamp, switch.moment, switch.last_call, switch.last_monitor, len(switch.events))],
        "acd_groups": [(number(device), it.name, it.ring, it.wrap, it.entered, it.answered, it.abandoned, it.moved, it.waited)
                       for device, it in switch.groups.items()],
        "stations": [(number(device),) for device in switch.stations],
        "agents": agent_rows(switch),
        "calls": [(call, number(it.caller), number(it.called), it.since) for call, it in switch.calls.items()],
        "connections": connection_rows(switch),
        "monitors": [(monitor, number(it.device), it.after) for monitor, it in switch.monitors.items()],
        "events": event_rows(switch),
        "kept": kept_rows(desk),
        "agent_groups": [(number(agent), number(group)) for agent, it in switch.agents.items() for group in it.groups[1:]],
        "group_priority": [(number(device), it.priority) for device, it in switch.groups.items() if it.priority],
    }
    return {table: sorted(found[table]) for table in TABLES}


def lay(file, found):
    """Makes a file of these rows."""
    database = sqlite3.connect(file)
    with database:
        for table, columns in TABLES.items():
            database.execute(f"CREATE TABLE {table} ({columns}) STRICT")
            places = ", ".join("?" * len(found[table][0])) if found[table] else ""
            database.executemany(f"INSERT INTO {table} VALUES ({places})", found[table])
    database.close()


def held(file):
    """The rows of a file."""
    database = sqlite3.connect(file)
    found = {table: sorted(database.execute(f"SELECT * FROM {table}").fetchall()) for table in TABLES}
    database.close()
    return found


def change(file, sql):
    database = sqlite3.connect(file)
    with database:
        changed = database.execute(sql).rowcount
    database.close()
    return changed


def held_lines(switch):
    """What the rows hold, in lines of transcripts (tests/trials/scenes)."""
    for agent, it in switch.agents.items():
        pending = f", pending {it.pending}" if it.pending else ""
        yield f"agent {agent} {it.state}{pending}, stamp {it.stamp}, since {it.since}"
    for device, it in switch.groups.items():
        yield f"figures of {device}: entered {it.entered}, answered {it.answered}, abandoned {it.abandoned}, moved {it.moved}, waited {it.waited}"
    for number, call in switch.calls.items():
        yield f"call {number} since {call.since}"
        for device, it in call.connections.items():
            yield f"call {number} at {device} {it.state}" + (f" of group {it.group}" if it.group else "")
            if it.place is not None:
                yield f"entry of call {number} at {device}: place {it.place}, queued {it.queued}"
    for number, it in switch.monitors.items():
        yield f"monitor {number} at {it.device} after event {it.after}"
    yield f"{len(switch.monitors)} monitors"
    yield f"{len(switch.groups)} groups, {len(switch.stations)} stations, {len(switch.agents)} agents"
    yield f"{len(switch.calls)} calls, {sum(len(call.connections) for call in switch.calls.values())} connections"
    yield f"last stamp {switch.stamp}, moment {switch.moment}, event {len(switch.events)}"


def export(switch):
    """The export of all event reports."""
    text = io.StringIO()
    writer = csv.DictWriter(text, "number,moment,event,call,device,agent,group,to,cause,waited".split(","), lineterminator="\n")
    writer.writeheader()
    writer.writerows(switch.events)
    return text.getvalue()


# what is told

def known(**members):
    return {name: value for name, value in members.items() if value is not None}


def agent_told(switch, agent):
    it = switch.agents[agent]
    groups = {"groups": it.groups} if len(it.groups) > 1 else {"group": it.groups[0]} if it.groups else {}
    return known(agent=agent, device=it.station, name=it.name, pending=it.pending, since=it.since, state=it.state, **groups)


def call_told(switch, call):
    it = switch.calls[call]
    ends = [known(device=device, state=end.state, group=end.group if switch.distributed(device, end) else None)
            for device, end in sorted(it.connections.items(), key=lambda end: order(end[0]))]
    return {"call": call, "called": it.called, "caller": it.caller, "connections": ends, "since": it.since}


def device_told(switch, device):
    if device in switch.groups:
        it = switch.groups[device]
        return known(device=device, kind="group", name=it.name, priority=it.priority or None, ring=it.ring, wrap=it.wrap)
    ends = [{"call": call, "state": it.connections[device].state} for call, it in sorted(switch.calls.items()) if device in it.connections]
    return known(agent=switch.agent_at(device), connections=ends, device=device, kind="station")


def snapshot_told(switch):
    """All records of one state, with what their own reads don't tell."""
    def in_order(records):
        return sorted(records, key=order)

    def call_shown(call):
        told = call_told(switch, call)
        for end in told["connections"]:
            it = switch.calls[call].connections[end["device"]]
            end |= known(place=it.place, queued=it.queued, offered=it.offered)
        return told

    figures = ["abandoned", "answered", "entered", "moved", "waited"]
    return {
        "agents": [{**agent_told(switch, agent), "stamp": switch.agents[agent].stamp} for agent in in_order(switch.agents)],
        "calls": [call_shown(call) for call in sorted(switch.calls)],
        "groups": [{**device_told(switch, group), **{name: getattr(switch.groups[group], name) for name in figures}} for group in in_order(switch.groups)],
        "last": len(switch.events), "moment": switch.moment,
        "monitors": [{"after": it.after, "device": it.device, "monitor": monitor} for monitor, it in sorted(switch.monitors.items())],
        "stations": [device_told(switch, station) for station in in_order(switch.stations)],
    }


def queue_told(switch, group):
    waiting = [(place, call, switch.calls[call].connections[group].queued) for place, call in switch.waiting(group)]
    return {"calls": [{"call": call, "place": place, "since": queued} for place, call, queued in waiting], "group": group,
            "ready": [agent for _, _, agent in switch.eligible(group)]}


def events_told(switch, after, most=100):
    return {"events": switch.events[after:after + most], "last": len(switch.events)}


def monitor_told(switch, monitor, after=0):
    it = switch.monitors[monitor]
    events = [event for event in switch.events[max(after, it.after):] if event.get("device") == it.device]
    return {"events": events[:100], "last": len(switch.events)}


def report(switch):
    """At the last executed moment."""
    waiting, ringing = {group: [] for group in switch.groups}, dict.fromkeys(switch.groups, 0)
    for call in switch.calls.values():
        for device, end in call.connections.items():
            if end.state == "queued":
                waiting[device].append(end.queued)
            elif end.state == "alerting" and end.group:
                ringing[end.group] += 1
    lines = ["group           waiting ringing    entered   answered  abandoned      moved    average    longest name"]
    for group, it in sorted(switch.groups.items(), key=lambda each: order(each[0])):
        average = it.waited // it.answered if it.answered else "-"
        longest = switch.moment - min(waiting[group]) if waiting[group] else "-"
        lines.append(f"{group:15} {len(waiting[group]):7} {ringing[group]:7} {it.entered:10} {it.answered:10} {it.abandoned:10} "
                     f"{it.moved:10} {average:>10} {longest:>10} {it.name}")
    return "".join(line + "\n" for line in lines)
