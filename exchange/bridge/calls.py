"""Calls: turns the decisions of the desk, which its events and replies report, into legs."""
from collections.abc import Callable
from typing import Any

from acd_client import Answer, Event

from .dialogs import Dialogs
from .records import Agent, Call, Leg, Request, Stranger
from .steps import Steps

REFUSED = {"unknownDevice": 404, "stationBusy": 486, "sameDevice": 486, "destinationBusy": 486}


class Calls:
    def __init__(self, steps: Steps, dialogs: Dialogs):
        self.steps, self.rows, self.dialogs = steps, steps.rows, dialogs
        # with a new file over a desk that has a history, the exchange does nothing of that again
        self.learning = False
        # the function for the reply to a request, by its name
        self.takers: dict[str, Callable[[Request, Leg | None, Answer], None]] = {
            "arrived": self.arrived, "went_off_hook": self.went_off_hook, "answered": self.answered,
            "deflected": self.deflected, "rejected": self.rejected, "ticked": self.ticked}

    def take_reply(self, row: Request, answer: Answer) -> None:
        self.rows.requests.remove(row.key)
        if row.then:
            self.takers[row.then](row, self.rows.legs.get(row.leg), answer)

    def pass_over(self, row: Request) -> None:
        """The step of a reply failed, or there was none for too long: the leg that it was for is ended."""
        self.rows.requests.remove(row.key)
        if row.leg in self.rows.legs:
            self.dialogs.end(self.rows.legs[row.leg], 500)

    def arrive(self, leg: Leg, device: str, called: str) -> None:
        leg.device, (service, caller) = device, ("makeCall", "device") if leg.station else ("arriveCall", "caller")
        self.steps.ask(service, "arrived", leg, **{caller: device}, called=called)

    def arrived(self, row: Request, leg: Leg | None, answer: Answer) -> None:
        caller, called = row.body.get("caller") or row.body["device"], row.body["called"]
        if answer.status == 200 and (leg is None or leg.state != "in"):
            # the caller hung up before the desk answered
            self.steps.ask("clearConnection", call=answer.result["call"], device=caller)
        elif answer.status == 200 and leg is not None:
            call = self.rows.calls.add(Call(str(answer.result["call"]), caller, called, {caller: leg.key}))
            leg.call, leg.due = call.key, 0.0
            if leg.station:
                self.steps.ask("phoneOffHook", "went_off_hook", leg, call=int(call.key), device=caller)
        elif leg is not None and answer.error == "callerPlanned":
            # a stranger who shows a number of the desk's plan
            self.arrive(leg, "0" + caller[:14], called)
        elif leg is not None:
            self.dialogs.end(leg, REFUSED.get(answer.error, 503))

    def went_off_hook(self, row: Request, leg: Leg | None, answer: Answer) -> None:
        call = self.dialogs.call_of(leg) if leg is not None else None
        if call is not None and answer.error == "wrongConnectionState":
            # a click picked it up before the phone was lifted
            self.dialogs.settle(call)
        elif answer.status != 200 and leg is not None:
            self.dialogs.end(leg)

    def answered(self, row: Request, leg: Leg | None, answer: Answer) -> None:
        call = self.dialogs.call_of(leg) if leg is not None else None
        if answer.status == 200 and call is not None:
            call.connected = True
            self.dialogs.settle(call)
        elif answer.status != 200 and leg is not None:
            # too late: the desk gave the call to somebody else
            if call is not None:
                self.dialogs.detach(call, leg.device)
            self.dialogs.end(leg)

    def deflected(self, row: Request, leg: Leg | None, answer: Answer) -> None:
        """A phone moved to a place that the desk doesn't know: as if it were busy."""
        call = self.rows.calls.get(str(row.body["call"]))
        if answer.status != 200 and call is not None:
            self.dialogs.decline(call, row.body["device"], 486)

    def rejected(self, row: Request, leg: Leg | None, answer: Answer) -> None:
        """409: a tick, the caller or somebody else was first. A desk that is older than the service answers 400."""
        if answer.status not in (200, 409):
            answered = f"a rejectCall is answered {answer.status} {answer.error}".rstrip()
            self.steps.say_hourly(f"{answered}: the offer waits for the end of its ring")

    def ticked(self, row: Request, leg: Leg | None, answer: Answer) -> None:
        if answer.status != 200:
            self.steps.say_hourly(f"a tick of the desk is answered {answer.status} {answer.error}".rstrip())

    def learn(self, agents: list[dict[str, Any]], last: Event) -> None:
        """Who is logged on where, as of the last event."""
        self.steps.place.known = dict(last)
        for agent in agents:
            if "device" in agent:
                self.rows.agents.add(Agent(agent["device"], agent["agent"]))

    def take_events(self, events: list[Event]) -> None:
        for event in events:
            self.steps.place.known = dict(event)
            self.take_event(event)

    def take_event(self, event: Event) -> None:
        kind, device, key = event["event"], event.get("device", ""), str(event.get("call", ""))
        if key in self.rows.calls:
            self.take_event_of(self.rows.calls[key], event, device)
        elif kind == "agentLoggedOn":
            self.rows.agents.add(Agent(device, event.get("agent", "")))
        elif kind == "agentLoggedOff":
            self.rows.agents.remove(device)
        elif kind == "serviceInitiated" and not self.learning:
            # a makeCall by a click on a screen, not by a phone: the phone at that station rings first
            self.dialogs.invite(self.rows.calls.add(Call(key, device, "")), device, device,
                                self.dialogs.music.offer(""))
        elif kind == "callCleared":
            self.rows.strangers.remove(key)
        elif key:
            self.rows.strangers.add(Stranger(key))

    def take_event_of(self, call: Call, event: Event, device: str) -> None:
        match event["event"]:
            case "originated":
                call.called = event.get("to", "")
            case "queued":
                call.connected = call.joined = False
                for leg in self.dialogs.of(call):
                    self.dialogs.entertain(leg)
            case "delivered" if device not in call.legs:
                self.delivered(call, device, event.get("group", ""))
            case "diverted" | "transferred" | "connectionCleared":
                leg_there = self.dialogs.detach(call, device)
                if leg_there is not None:
                    self.dialogs.end(leg_there, call.failure)
            case "failed":
                call.failure = 486
                self.steps.ask("clearConnection", call=int(call.key), device=call.caller)
            case "callCleared":
                self.rows.calls.remove(call.key)
                self.rows.strangers.remove(call.key)
                for leg in self.dialogs.of(call):
                    self.dialogs.end(leg, call.failure)

    def delivered(self, call: Call, device: str, group: str) -> None:
        call.connected, call.joined, call.offers = False, False, {**call.offers, device: group}
        self.dialogs.settle(call)
        offer = next((leg.sdp for leg in self.dialogs.of(call) if leg.sdp), "") or self.dialogs.music.offer("")
        self.dialogs.invite(call, device, call.caller if call.caller != device else call.called, offer)
