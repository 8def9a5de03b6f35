"""Requests that are to be asked: each member at the edges of its form, and requests of a day with a fault in them."""
import json
import random
import re

GOOD = {"requester": "edge", "device": "201", "name": "Ana", "ring": 20, "wrap": 30, "priority": 5, "agent": "7", "caller": "0301", "called": "100", "call": 1,
        "to": "202", "monitor": 1, "group": "100", "groups": ["100", "110"]}
TEXTS = ["", "0", "7", "007", "1" * 8, "1" * 9, "1" * 10, "1" * 15, "1" * 16, " ", "~", "\x7f", "\x1f", "é", "a", "Z", "-", "_", "a" * 32, "a" * 33, "A" * 40,
         "A" * 41, "12\n", "+1", "ready", "notReady", "workingAfterCall", "loggedOn", "loggedOff", "null", "busy", "Ready", "tick", "setGroupPriority",
         "rejectCall", "changeGroup", "changeAgent"]
NUMBERS = [0, 1, -1, 9, 10, 3600, 3601, 999999999, 10 ** 9, 10 ** 9 + 1, 2 ** 63, 2 ** 64, 10 ** 30]
EIGHT = [str(number) for number in range(100, 108)]
LISTS = [[], ["100"], ["100", "100"], ["7", "07"], EIGHT, EIGHT + ["108"], EIGHT[:7] + ["100"], ["100", "x"], [100], [None], [["100"]], ["1" * 15, "1" * 16]]
OTHERS = [None, True, {}, [1], {"a": 1}, 1.5]
LEFT_OUT = object()


def edges(description):
    """Each member of each request with each value at the edge of some form, and left out."""
    invoke = 500000000
    for name in description.requests():
        members = description.merged(description.schemas[name])["properties"]
        base = {member: form["enum"][0] if "enum" in form else GOOD.get(member) for member, form in members.items()}
        for member in base:
            for value in [LEFT_OUT, *TEXTS, *NUMBERS, *LISTS, *OTHERS]:
                invoke += 1
                request = {**base, "invoke": invoke, member: value}
                if value is LEFT_OUT:
                    del request[member]
                yield json.dumps(request).encode()
        if "group" in base:
            for value in [*LISTS, *OTHERS, "x"]:
                # beside a group the list isn't looked at
                invoke += 1
                yield json.dumps({**base, "invoke": invoke, "groups": value}).encode()
                yield json.dumps({**base, "invoke": invoke, "group": None, "groups": value}).encode()


def leave_out(chance, request, member, body):
    del request[member]


def replace(chance, request, member, body):
    request[member] = chance.choice([None, True, [], {}, "", 0, -1, "x", 1.5, 1.0, "1" * 16, 10 ** 9, 10 ** 20, "0", " ", "é", "ready", "loggedOn", ["100", "110"]])


def lengthen(chance, request, member, body):
    request[member] = str(request[member]) + chance.choice(["", "0", "x", " ", "\n"])


def rename(chance, request, member, body):
    request["service"] = chance.choice(["tick", "Tick", "holdCall", "setAgentState", "arriveCall", "addGroup", "setGroupPriority", "rejectCall",
                                        "changeGroup", "changeAgent"])


def add_member(chance, request, member, body):
    request["extra"] = chance.choice([None, 1, "x", [{}]])


def double(chance, request, member, body):
    return body[:-1] + b',"%s":%s}' % (member.encode(), chance.choice([b"1", b'"1"', b"null", b'"ready"', b'["7","07"]']))


def cut(chance, request, member, body):
    return body[:chance.randrange(len(body))]


def spell(chance, request, member, body):
    return re.sub(rb":(\d+)", lambda found: b":" + found[1] + chance.choice([b"", b".0", b"e0", b"E+1"]), body, 1)


def renumber(chance, request, member, body):
    for name in ("ring", "wrap", "call", "invoke", "monitor", "priority"):
        if name in request:
            request[name] = chance.choice([0, 1, 9, 10, 3600, 3601, 10 ** 9, 10 ** 9 + 1, 999999999])


def regroup(chance, request, member, body):
    request["groups"] = chance.choice(LISTS)


WAYS = [leave_out, replace, lengthen, rename, add_member, double, cut, spell, renumber, regroup]


def mutated(bodies, count, seed=1):
    """Requests of these with one fault, or none."""
    chance = random.Random(seed)
    for _ in range(count):
        body = chance.choice(bodies)
        request = json.loads(body)
        made = chance.choice(WAYS)(chance, request, chance.choice(list(request)), body)
        yield json.dumps(request).encode() if made is None else made
