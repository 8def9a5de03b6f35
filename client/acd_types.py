"""The bodies that the desk takes and gives, as types: made of docs/openapi.yaml by
tests/trials/api/python_types.py, and not by hand."""
from __future__ import annotations

from typing import Literal, NotRequired, TypedDict, Union

DeviceId = str
AgentId = str
CallId = int
MonitorId = int
Requester = str
Invoke = int
Name = str
Timeout = int
Priority = int
Moment = int
Stamp = int
EventNumber = int
Figure = int
ServedGroups = list[DeviceId]
AgentState = Literal['null', 'notReady', 'ready', 'busy', 'workingAfterCall']
PendingState = Literal['ready', 'notReady', 'workingAfterCall', 'loggedOff']
FaultyMember = Literal['head', 'host', 'contentLength', 'after', 'json', 'requester', 'invoke', 'service', 'device',
                       'called', 'caller', 'to', 'group', 'groups', 'agent', 'name', 'requested', 'call', 'monitor',
                       'ring', 'wrap', 'priority']
ConnectionState = Literal['initiated', 'alerting', 'connected', 'hold', 'queued', 'fail']
QueueReport = str


class RequestKey(TypedDict):
    requester: Requester
    invoke: Invoke


class ConnectionRequest(RequestKey):
    call: CallId
    device: DeviceId


class AddGroup(RequestKey):
    service: Literal['addGroup']
    device: DeviceId
    name: Name
    ring: Timeout
    wrap: Timeout


class AddStation(RequestKey):
    service: Literal['addStation']
    device: DeviceId


class AddAgent(RequestKey):
    service: Literal['addAgent']
    agent: AgentId
    name: Name


class ArriveCall(RequestKey):
    service: Literal['arriveCall']
    caller: DeviceId
    called: DeviceId


class MakeCall(RequestKey):
    service: Literal['makeCall']
    device: DeviceId
    called: DeviceId


class PhoneOffHook(ConnectionRequest):
    service: Literal['phoneOffHook']


class AnswerCall(ConnectionRequest):
    service: Literal['answerCall']


class HoldCall(ConnectionRequest):
    service: Literal['holdCall']


class RetrieveCall(ConnectionRequest):
    service: Literal['retrieveCall']


class ClearConnection(ConnectionRequest):
    service: Literal['clearConnection']


class DeflectCall(ConnectionRequest):
    service: Literal['deflectCall']
    to: DeviceId


class SingleStepTransfer(ConnectionRequest):
    service: Literal['singleStepTransfer']
    to: DeviceId


class LogOnInGroup(RequestKey):
    service: Literal['setAgentState']
    agent: AgentId
    requested: Literal['loggedOn']
    device: DeviceId
    group: DeviceId


class LogOnInGroups(RequestKey):
    service: Literal['setAgentState']
    agent: AgentId
    requested: Literal['loggedOn']
    device: DeviceId
    groups: ServedGroups


class ChangeState(RequestKey):
    service: Literal['setAgentState']
    agent: AgentId
    requested: Literal['loggedOff', 'notReady', 'ready', 'workingAfterCall']


class MonitorStart(RequestKey):
    service: Literal['monitorStart']
    device: DeviceId


class MonitorStop(RequestKey):
    service: Literal['monitorStop']
    monitor: MonitorId


class Tick(RequestKey):
    service: Literal['tick']


class SetGroupPriority(RequestKey):
    service: Literal['setGroupPriority']
    device: DeviceId
    priority: Priority


class RejectCall(ConnectionRequest):
    service: Literal['rejectCall']


class ChangeGroup(RequestKey):
    service: Literal['changeGroup']
    device: DeviceId
    name: Name
    ring: Timeout
    wrap: Timeout


class ChangeAgent(RequestKey):
    service: Literal['changeAgent']
    agent: AgentId
    name: Name


class Reply(TypedDict):
    invoke: Invoke
    requester: Requester
    result: ServiceResult


class ServiceResult(TypedDict):
    call: NotRequired[CallId]
    monitor: NotRequired[MonitorId]
    pending: NotRequired[PendingState]
    state: NotRequired[AgentState]


class NoResult(TypedDict):
    pass


class CallResult(TypedDict):
    call: CallId


class MonitorResult(TypedDict):
    monitor: MonitorId


class StateResult(TypedDict):
    pending: NotRequired[PendingState]
    state: AgentState


class UnknownDevice(TypedDict):
    code: Literal[1]
    name: Literal['unknownDevice']


class UnknownAgent(TypedDict):
    code: Literal[2]
    name: Literal['unknownAgent']


class UnknownCall(TypedDict):
    code: Literal[3]
    name: Literal['unknownCall']


class UnknownConnection(TypedDict):
    code: Literal[4]
    name: Literal['unknownConnection']


class WrongConnectionState(TypedDict):
    code: Literal[5]
    name: Literal['wrongConnectionState']


class WrongAgentState(TypedDict):
    code: Literal[6]
    name: Literal['wrongAgentState']


class DeviceExists(TypedDict):
    code: Literal[7]
    name: Literal['deviceExists']


class AgentExists(TypedDict):
    code: Literal[8]
    name: Literal['agentExists']


class NotStation(TypedDict):
    code: Literal[9]
    name: Literal['notStation']


class NotGroup(TypedDict):
    code: Literal[10]
    name: Literal['notGroup']


class DestinationBusy(TypedDict):
    code: Literal[11]
    name: Literal['destinationBusy']


class SameDevice(TypedDict):
    code: Literal[12]
    name: Literal['sameDevice']


class StationTaken(TypedDict):
    code: Literal[13]
    name: Literal['stationTaken']


class StationBusy(TypedDict):
    code: Literal[14]
    name: Literal['stationBusy']


class TooManyCalls(TypedDict):
    code: Literal[15]
    name: Literal['tooManyCalls']


class PlanFull(TypedDict):
    code: Literal[16]
    name: Literal['planFull']


class UnknownMonitor(TypedDict):
    code: Literal[17]
    name: Literal['unknownMonitor']


class CallerPlanned(TypedDict):
    code: Literal[18]
    name: Literal['callerPlanned']


class Malformed(TypedDict):
    code: Literal[30]
    member: FaultyMember
    name: Literal['malformed']


class InvokeReused(TypedDict):
    code: Literal[31]
    name: Literal['invokeReused']


class DeskFull(TypedDict):
    code: Literal[32]
    name: Literal['deskFull']


class NoMemory(TypedDict):
    code: Literal[33]
    name: Literal['noMemory']


class StoreFault(TypedDict):
    code: Literal[34]
    name: Literal['storeFault']


class NotFound(TypedDict):
    code: Literal[35]
    name: Literal['notFound']


class MethodNotAllowed(TypedDict):
    code: Literal[36]
    name: Literal['methodNotAllowed']


class LengthRequired(TypedDict):
    code: Literal[37]
    name: Literal['lengthRequired']


class BodyTooLarge(TypedDict):
    code: Literal[38]
    name: Literal['bodyTooLarge']


class HeadTooLarge(TypedDict):
    code: Literal[39]
    name: Literal['headTooLarge']


class NotImplemented(TypedDict):
    code: Literal[40]
    name: Literal['notImplemented']


class Forbidden(TypedDict):
    code: Literal[41]
    name: Literal['forbidden']


class Unauthorized(TypedDict):
    code: Literal[42]
    name: Literal['unauthorized']


class RefusalReply(TypedDict):
    error: RefusalError
    invoke: Invoke
    requester: Requester


class InvokeReusedReply(TypedDict):
    error: InvokeReused
    invoke: Invoke
    requester: Requester


class DeskFullReply(TypedDict):
    error: DeskFull
    invoke: Invoke
    requester: Requester


class MalformedReply(TypedDict):
    error: Malformed


class UnavailableReply(TypedDict):
    error: UnavailableError


class UnauthorizedReply(TypedDict):
    error: Unauthorized


class ForbiddenReply(TypedDict):
    error: Forbidden


class NotFoundReply(TypedDict):
    error: NotFound


class MethodNotAllowedReply(TypedDict):
    error: MethodNotAllowed


class LengthRequiredReply(TypedDict):
    error: LengthRequired


class BodyTooLargeReply(TypedDict):
    error: BodyTooLarge


class HeadTooLargeReply(TypedDict):
    error: HeadTooLarge


class NotImplementedReply(TypedDict):
    error: NotImplemented


class Agent(TypedDict):
    agent: AgentId
    device: NotRequired[DeviceId]
    group: NotRequired[DeviceId]
    groups: NotRequired[list[DeviceId]]
    name: Name
    pending: NotRequired[PendingState]
    since: Moment
    state: AgentState


class Parties(TypedDict):
    call: CallId
    called: DeviceId
    caller: DeviceId
    since: Moment


class Connection(TypedDict):
    device: DeviceId
    group: NotRequired[DeviceId]
    state: ConnectionState


class Call(Parties):
    connections: list[Connection]


class Group(TypedDict):
    device: DeviceId
    kind: Literal['group']
    name: Name
    priority: NotRequired[int]
    ring: Timeout
    wrap: Timeout


class Station(TypedDict):
    agent: NotRequired[AgentId]
    connections: list[StationConnection]
    device: DeviceId
    kind: Literal['station']


class StationConnection(TypedDict):
    call: CallId
    state: ConnectionState


class Queue(TypedDict):
    calls: list[WaitingCall]
    group: DeviceId
    ready: list[AgentId]


class WaitingCall(TypedDict):
    call: CallId
    place: Stamp
    since: Moment


class Page(TypedDict):
    events: list[EventReport]
    last: Figure


class LongPage(TypedDict):
    events: list[EventReport]
    last: Figure


class RequestsPage(TypedDict):
    last: Figure
    requests: list[ExecutedRequest]


class ExecutedRequest(TypedDict):
    moment: Moment
    reply: KeptReply
    request: ServiceRequest
    stamp: Stamp
    status: Literal[200, 409]


class Snapshot(TypedDict):
    agents: list[SnapshotAgent]
    calls: list[SnapshotCall]
    groups: list[SnapshotGroup]
    last: Figure
    moment: Moment
    monitors: list[SnapshotMonitor]
    stations: list[Station]


class SnapshotAgent(Agent):
    stamp: Stamp


class SnapshotCall(Parties):
    connections: list[SnapshotConnection]


class SnapshotConnection(Connection):
    offered: NotRequired[Moment]
    place: NotRequired[Stamp]
    queued: NotRequired[Moment]


class SnapshotGroup(Group):
    abandoned: Figure
    answered: Figure
    entered: Figure
    moved: Figure
    waited: Figure


class SnapshotMonitor(TypedDict):
    after: Figure
    device: DeviceId
    monitor: MonitorId


class CallReport(TypedDict):
    call: CallId
    moment: Moment
    number: EventNumber


class AgentReport(TypedDict):
    agent: AgentId
    device: DeviceId
    moment: Moment
    number: EventNumber


class ServiceInitiated(CallReport):
    device: DeviceId
    event: Literal['serviceInitiated']


class Originated(CallReport):
    device: DeviceId
    event: Literal['originated']
    to: DeviceId


class Queued(CallReport):
    cause: Literal['newCall', 'deflected', 'transferred', 'noAnswer']
    device: DeviceId
    event: Literal['queued']


class Delivered(CallReport):
    cause: Literal['newCall', 'distributed', 'deflected', 'transferred']
    device: DeviceId
    event: Literal['delivered']
    group: NotRequired[DeviceId]


class Diverted(CallReport):
    cause: Literal['distributed', 'deflected', 'noAnswer']
    device: DeviceId
    event: Literal['diverted']
    group: NotRequired[DeviceId]
    to: DeviceId


class Established(CallReport):
    device: DeviceId
    event: Literal['established']
    group: NotRequired[DeviceId]
    waited: NotRequired[int]


class Held(CallReport):
    device: DeviceId
    event: Literal['held']


class Retrieved(CallReport):
    device: DeviceId
    event: Literal['retrieved']


class Transferred(CallReport):
    device: DeviceId
    event: Literal['transferred']
    to: DeviceId


class Failed(CallReport):
    cause: Literal['busy']
    device: DeviceId
    event: Literal['failed']


class ConnectionCleared(CallReport):
    device: DeviceId
    event: Literal['connectionCleared']


class CallCleared(CallReport):
    event: Literal['callCleared']
    group: NotRequired[DeviceId]


class AgentLoggedOn(AgentReport):
    event: Literal['agentLoggedOn']
    group: NotRequired[DeviceId]


class AgentLoggedOff(AgentReport):
    event: Literal['agentLoggedOff']


class AgentNotReady(AgentReport):
    event: Literal['agentNotReady']


class AgentReady(AgentReport):
    event: Literal['agentReady']


class AgentBusy(AgentReport):
    event: Literal['agentBusy']


class AgentWorkingAfterCall(AgentReport):
    event: Literal['agentWorkingAfterCall']


LogOn = Union[LogOnInGroup, LogOnInGroups]
SetAgentState = Union[LogOn, ChangeState]
ServiceRequest = Union[AddGroup, AddStation, AddAgent, ArriveCall, MakeCall, PhoneOffHook, AnswerCall, HoldCall,
                       RetrieveCall, ClearConnection, DeflectCall, SingleStepTransfer, SetAgentState, MonitorStart,
                       MonitorStop, Tick, SetGroupPriority, RejectCall, ChangeGroup, ChangeAgent]
RefusalError = Union[UnknownDevice, UnknownAgent, UnknownCall, UnknownConnection, WrongConnectionState, WrongAgentState,
                     DeviceExists, AgentExists, NotStation, NotGroup, DestinationBusy, SameDevice, StationTaken,
                     StationBusy, TooManyCalls, PlanFull, UnknownMonitor, CallerPlanned]
UnavailableError = Union[NoMemory, StoreFault]
PlannedDevice = Union[Group, Station]
KeptReply = Union[Reply, RefusalReply]
EventReport = Union[ServiceInitiated, Originated, Queued, Delivered, Diverted, Established, Held, Retrieved,
                    Transferred, Failed, ConnectionCleared, CallCleared, AgentLoggedOn, AgentLoggedOff, AgentNotReady,
                    AgentReady, AgentBusy, AgentWorkingAfterCall]
