// A client that tsc has to take, with the types that are made of docs/openapi.yaml; each marked line has to be refused.
import type { ServiceRequest, Reply, RefusalError, EventReport, PlannedDevice, Snapshot } from './desk';

declare function ask(request: ServiceRequest): Promise<Reply>;

export async function shift(): Promise<number | undefined> {
  const reply = await ask({ requester: 'pbx', invoke: 1, service: 'arriveCall', caller: '0301234', called: '100' });
  await ask({ requester: 'desk', invoke: 1, service: 'setAgentState', agent: '7', requested: 'loggedOn', device: '201', group: '100' });
  await ask({ requester: 'desk', invoke: 2, service: 'setAgentState', agent: '8', requested: 'loggedOn', device: '202', groups: ['100', '110'] });
  await ask({ requester: 'plan', invoke: 3, service: 'setGroupPriority', device: '100', priority: 5 });
  await ask({ requester: 'plan', invoke: 4, service: 'changeGroup', device: '100', name: 'Billing', ring: 15, wrap: 30 });
  await ask({ requester: 'plan', invoke: 5, service: 'changeAgent', agent: '7', name: 'Anna' });
  await ask({ requester: 'desk', invoke: 7, service: 'rejectCall', call: 1, device: '201' });
  // @ts-expect-error a log-on without a group
  await ask({ requester: 'desk', invoke: 3, service: 'setAgentState', agent: '7', requested: 'loggedOn', device: '201' });
  // @ts-expect-error groups that are no list
  await ask({ requester: 'desk', invoke: 3, service: 'setAgentState', agent: '7', requested: 'loggedOn', device: '201', groups: '100' });
  // @ts-expect-error a member of another service
  await ask({ requester: 'desk', invoke: 4, service: 'answerCall', call: 1, device: '201', to: '202' });
  // @ts-expect-error a change that leaves a member out
  await ask({ requester: 'plan', invoke: 6, service: 'changeGroup', device: '100', ring: 15 });
  // @ts-expect-error no such service
  await ask({ requester: 'desk', invoke: 5, service: 'parkCall', call: 1, device: '201' });
  // @ts-expect-error a number for a text
  await ask({ requester: 'desk', invoke: 6, service: 'answerCall', call: 1, device: 201 });
  return reply.result.call;
}

export function told(event: EventReport): string {
  switch (event.event) {
    case 'queued': return `${event.call} waits in ${event.device}: ${event.cause}`;
    case 'established': return `${event.call} was answered behind ${event.waited ?? 0} seconds`;
    case 'callCleared': return `${event.call} ${event.group ?? ''}`;
    case 'agentLoggedOn': return event.group ?? 'several groups';
    case 'transferred': case 'originated': case 'diverted': return event.to;
    case 'serviceInitiated': case 'delivered': case 'held': case 'retrieved': case 'failed': case 'connectionCleared': return event.device;
    case 'agentLoggedOff': case 'agentNotReady': case 'agentReady': case 'agentBusy': case 'agentWorkingAfterCall': return event.agent;
    // an event that has no case of its own is no `never`
    default: { const none: never = event; return none; }
  }
}

export const code = (error: RefusalError): 1 | 2 | undefined => error.name === 'unknownDevice' || error.name === 'unknownAgent' ? error.code : undefined;
export const timeout = (device: PlannedDevice): number => device.kind === 'group' ? device.ring : device.connections.length;
export const ringing = (desk: Snapshot): number[] => desk.calls.flatMap((call) => call.connections.map((connection) => connection.offered ?? 0));
export const longest = (desk: Snapshot): string[] => [...desk.agents].sort((one, other) => one.stamp - other.stamp).map((agent) => agent.name);
