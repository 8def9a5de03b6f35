// The gate's answers about an agent, and the types of the agent's page, for the checker of types. No browser loads this file.
import type {AgentState, ConnectionState, Doing, News} from '../types';

declare global {
  // what the gate tells

  type Side = {device: string, group?: string, sent?: string, since: number, state: ConnectionState};
  /** back: to whom it goes back; sent: the group that the caller came from, where no group gave the call to the agent */
  type MyCall = {back?: string, call: number, called?: string, caller?: string, connections: Side[], queued?: number, since: number};
  type MyQueue = {calls: {call: number, caller?: string, queued?: number}[], device: string, loggedOn: number, name: string,
    ready: number, ring: number, wrap: number};
  /** logOn identifies a log-on */
  type MyState = {agent: string, device?: string, groups?: string[], logOn?: number, name?: string, pending?: string,
    since?: number, state?: AgentState};
  /** the last offer that the desk withdrew */
  /** of a place for a call: of a group how many are logged on, of a station what the agent there does */
  type There = {device: string, loggedOn?: number, ready?: number, agent?: string, doing?: Doing};
  type Missed = {call: number, caller?: string, group?: string, moment: number, since: number};
  /** who else asked for the last change of the agent's state, and for which one */
  type Changed = {by: string, moment: number, requested: 'ready' | 'notReady' | 'workingAfterCall' | 'loggedOff'};
  type DayCall = {call: number, caller?: string, group?: string, moment: number, talked: number};
  type MyDay = {answered: number, begins: number, calls: DayCall[], missed: number, talking: number, talks?: number};
  /** what the gate keeps of the agent: why not ready, and what the last calls were about */
  type GivenCall = DayCall & {code: string};
  type Given = {reason: string, calls: GivenCall[]};
  type GivenBody = {reason: string} | {call: number, talk: number, code: string};
  /** the page, as reasons and codes need it */
  type GivingPage = {id: () => string, ask: (requested: string) => void, refuse: (words: string) => void, draw: () => void,
    who: Namer, group: Namer};
  type Names = {agents: {agent: string, device?: string, name: string}[], groups: {device: string, name: string}[], stations: string[]};
  /** lines: those of groups that were told, by their numbers; queues: which of them are the agent's */
  type Mine = {agent: MyState, calls: MyCall[], day?: MyDay | null, doing: {doing: Doing, since: number, group?: string | null},
    given?: Given, groups: MyQueue[], lines: Record<string, MyQueue>, live: boolean, missed?: Missed | null, changed?: Changed | null,
    names?: Names, queues: string[]};
  /** what GET /session answers; own: the login may change its password here; first: it has one that it was given */
  type Who = {agent?: string, begun?: number, ends?: number, first?: boolean, groups?: string[], login?: string, own?: boolean,
    reads?: string, role?: string, stations?: string[], why?: string};

  // what is asked for

  /** A request that has no answer yet: what it asks for in words, when it was asked for, and in which log-on; `key` names what was
   *  clicked. */
  type Kept = {body: string, words: string, at?: number, logOn?: number | null, key?: string};
  type Outcome = {kind: 'sent' | 'waits' | 'done' | 'refused' | 'dropped', words: string, key?: string,
    result?: {pending?: string, call?: number}};
  /** The page, as the requests need it. */
  type Asking = {isLive: () => boolean | undefined, logOn: () => number | null, show: (outcome: Outcome) => void,
    ask: (kept: Kept, answer: (sends: boolean) => void) => void};

  /** A place for a call; isEmpty: a station at which nobody is logged on. */
  type Goal = {to: string, name: string, isEmpty?: boolean};
  /** away: the names of agents who aren't logged on */
  type Places = {places: Goal[], away: string[]};

  // functions of the page

  type OfficeNames = typeof import('../words.js').office.names;
  type Namer = (device?: string) => string;
  type Rules = {
    taken(before: Mine | undefined, told: any, isWhole: boolean): Mine,
    sideOf(mine: Mine, call: MyCall): Side | undefined, sides(mine: Mine): Side[], isFree(mine: Mine): boolean,
    states(mine: Mine): Set<string>, isOutside(mine: Mine, call: MyCall): boolean, services(mine: Mine, call: MyCall): Set<string>,
    ringLeft(mine: Mine, side: Side, now: number): number | null, wrapLeft(mine: Mine, now: number): number | null,
    isOverdue(mine: Mine, now: number): boolean,
    placesOf(names: Names, office: OfficeNames): Places, meant(typed: string, known: Places, station?: string): Goal[] | null,
  };
  type Say = (key: string, values?: Record<string, string | number>) => string;
  type Send = (service: string, members: Record<string, unknown>, words: string, key: string) => void;
  type Notice = (key: string, words: string, buttons?: Button[], more?: Part) => void;
  type Act = (service: string, offer: {call: number, key: string, back?: string}, who: string, to: HTMLInputElement) => void;
  type Sure = (place: Goal, what: string, take: (place: Goal) => void) => Promise<void>;
  type Choose = (field: HTMLInputElement, what: string, asks: boolean, take: (place: Goal) => void) => void;
  type LastLogOn = {device: string, groups: string[]};
  type Keep = (place: string, one: Kept) => void;
  type Offer = {key: string, title: string, words: string};
  /** off: what was clicked and isn't answered */
  type DrawnCalls = {mine: Mine, now: number, acts: boolean, off: Set<string>, who: Namer, group: Namer, act: Act};
  type Card = (drawn: DrawnCalls, call: MyCall) => Part;
  /** its label, and its act besides removing the notice */
  type Button = [string, (() => void)?];
}
