"""What a day's requests leave to tell: of the lines as they were sent, with the answers that tests/switch.py foresees, in a table that SQL asks."""
import json
import sqlite3
import time

from switch import order

# by docs/USING.md: the members of each service
OF_CALL = ["call", "device"]
SERVICES = {"addGroup": ["device", "name", "ring", "wrap"], "addStation": ["device"], "addAgent": ["agent", "name"], "arriveCall": ["caller", "called"],
            "makeCall": ["device", "called"],
            **dict.fromkeys(("phoneOffHook", "answerCall", "holdCall", "retrieveCall", "clearConnection", "rejectCall"), OF_CALL),
            **dict.fromkeys(("deflectCall", "singleStepTransfer"), [*OF_CALL, "to"]), "setAgentState": ["agent", "requested"], "monitorStart": ["device"],
            "monitorStop": ["monitor"],
            "tick": [], "setGroupPriority": ["device", "priority"], "changeGroup": ["device", "name", "ring", "wrap"], "changeAgent": ["agent", "name"]}
COLUMNS = ["stamp", "moment", "requester", "invoke", "service", "agent", "requested", "call", "caller", "called", "device", "to", "groups", "name", "ring",
           "wrap", "priority", "monitor", "outcome"]


def members(request):
    found = {name: request[name] for name in SERVICES[request["service"]]}
    if request["service"] == "setAgentState" and request["requested"] == "loggedOn":
        groups = [request["group"]] if "group" in request else sorted(request["groups"], key=order)
        found |= {"device": request["device"], "groups": " ".join(groups)}
    return found


def outcome(body):
    if "error" in body:
        return f"refused, {body['error']['name']}"
    return ", ".join(f"{name} {body['result'][name]}" for name in ("call", "monitor", "state", "pending") if name in body["result"]) or "done"


def table(lines, answers):
    """Two tables: trail, and devices of each."""
    rows, keys, last = sqlite3.connect(":memory:"), set(), 0
    rows.execute(f"CREATE TABLE trail ({', '.join(f'{chr(34)}{column}{chr(34)}' for column in COLUMNS)})")
    rows.execute("CREATE TABLE devices (stamp, device)")
    for line, answer in zip(lines, answers):
        moment, _, text = line.partition(" ")
        status, _, body = answer.partition(" ")
        if status not in ("200", "409"):
            continue
        request, body = json.loads(text), json.loads(body)
        if (request["requester"], request["invoke"]) in keys:
            continue
        keys.add((request["requester"], request["invoke"]))
        last = max(last, int(moment))
        given = {name: value for name, value in body.get("result", {}).items() if name in ("call", "monitor")}
        has = {"stamp": len(keys), "moment": last, "outcome": outcome(body), **{name: request[name] for name in ("requester", "invoke", "service")},
               **members(request), **given}
        rows.execute(f"INSERT INTO trail VALUES ({', '.join('?' * len(COLUMNS))})", [has.get(column, "") for column in COLUMNS])
        devices = {has.get(name) for name in ("caller", "called", "device", "to")} | set(has.get("groups", "").split())
        rows.executemany("INSERT INTO devices VALUES (?, ?)", [(len(keys), device) for device in devices if device])
    return rows


def told(rows, where="1", values=()):
    """The lines of CSV of those that a condition finds."""
    for stamp, moment, *more in rows.execute(f"SELECT * FROM trail WHERE {where} ORDER BY stamp", values):
        yield [str(stamp), time.strftime("%Y-%m-%d %H:%M:%S", time.localtime(moment)) if moment else "-", *map(str, more)]
