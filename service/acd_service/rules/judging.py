"""What must be asked of the desk now, by the rules, the picture of those who wait, and what was tried before. It is a
function of these and of the moment. Tested, not proved."""
from collections.abc import Iterator, Mapping
from dataclasses import dataclass
from typing import Any, NamedTuple

from acd_service.rules.picture import Call, Group, Picture
from acd_service.rules.reading import GroupRules, Rule, Rules, When

# from this try of a rule for one call on each waits a second longer than the one before, a minute at most
QUICK, LONGEST = 5, 60
# refusals that say that the call has left the queue: the next try has to wait until it is there again
HAS_LEFT = ("unknownCall", "unknownConnection")
MOST_TRIES = 999


@dataclass
class Tried:
    """What became of a rule's tries for a call: the number of the next one, the moment before which it isn't sent, and
    whether there is none, since the rule has moved the call, or another instance has used its key."""
    next: int = 1
    not_before: int = 0
    is_over: bool = False

    def is_refused(self, now: int, why: str) -> None:
        """The desk has refused it, and keeps that: the same key would be refused for ever. Where that is for another
        reason than that the call has left, nothing may have changed by the next look."""
        self.next += 1
        self.not_before = now + (0 if why in HAS_LEFT else min(max(self.next - QUICK, 0), LONGEST))
        self.is_over = self.next > MOST_TRIES


# by the rule's name and the call's number
Tries = Mapping[tuple[str, int], Tried]


class Move(NamedTuple):
    """A rule that holds of a call that waits in the rule's group."""
    rule: Rule
    call: int
    number: int

    def requester(self, login: str) -> str:
        return f"{login}-{self.rule.name}-{self.number}"

    def request(self, login: str) -> dict[str, Any]:
        """deflectCall or clearConnection (ECMA-269), with the group as device: the desk refuses it for a call that was
        just offered or answered."""
        service = "deflectCall" if self.rule.to else "clearConnection"
        target = {"to": self.rule.to} if self.rule.to else {}
        return {"requester": self.requester(login), "invoke": self.call, "service": service, "call": self.call,
                "device": self.rule.group, **target}


def judged(rules: Rules, picture: Picture, tried: Tries, now: int) -> Iterator[Move]:
    """For each call that waits the first rule of its group that holds, can be carried out, and has a try left."""
    taken, queues = picture.busy_stations(), picture.queues()
    for group, has in rules.items():
        ahead = 0
        for call in queues[group]:
            move = of_call(has, picture, tried, Asked(call, ahead, now, taken))
            if move:
                yield move
                taken |= {move.rule.to} if move.rule.to else set()
            else:
                # who leaves is ahead of nobody
                ahead += 1


class Asked(NamedTuple):
    """A call that waits, how many are ahead of it, the moment, and which stations aren't idle."""
    call: Call
    ahead: int
    now: int
    taken: set[str]


def of_call(has: GroupRules, picture: Picture, tried: Tries, asked: Asked) -> Move | None:
    for rule in has.rules:
        before = tried.get((rule.name, asked.call.number), Tried())
        if before.is_over or asked.now < before.not_before:
            continue
        if holds(rule, has, picture, asked) and is_able(rule, picture, asked):
            return Move(rule, asked.call.number, before.next)
    return None


def holds(rule: Rule, has: GroupRules, picture: Picture, asked: Asked) -> bool:
    """Whether a rule must be carried out for a call by now."""
    if rule.when is When.CLOSED:
        return has.is_closed(asked.now)
    if rule.when is When.NOBODY:
        return picture.is_empty(rule.group) and asked.now >= picture.groups[rule.group].empty_since + rule.limit
    if rule.when is When.FULL:
        return asked.ahead >= rule.limit
    return asked.call.entered is not None and asked.now >= asked.call.entered + rule.limit


def is_able(rule: Rule, picture: Picture, asked: Asked) -> bool:
    """Whether the desk can move the call there: never to a group in which it has waited, and to a station only that is
    idle, that no agent has, and that isn't the call's own."""
    if rule.to is None:
        return True
    if rule.to in picture.groups:
        return rule.to not in asked.call.groups
    return picture.stations.get(rule.to, "nobody plans it") is None and rule.to not in asked.taken and \
        rule.to not in asked.call.connections


# The plan

def unfit(rules: Rules, groups: Mapping[str, Group] | set[str], stations: Mapping[str, str | None]) -> Iterator[
        tuple[str, int | None, str]]:
    """What of the rules the desk's plan doesn't allow: the group, the number of its rule, and why."""
    for group, has in rules.items():
        if group not in groups:
            yield group, None, f"no group {group} is planned"
        for number, rule in enumerate(has.rules):
            if rule.to is None or rule.to in groups:
                continue
            if rule.to not in stations:
                yield group, number, f"{rule.to} is neither a group nor a station of the plan"
            elif stations[rule.to] is not None:
                yield group, number, (f"{rule.to} is a station at which agent {stations[rule.to]} is logged on; "
                                      "a rule moves nobody to an agent")
