// The forms of the desk's answers and of the pages' objects, for the checker of types. No browser loads this file.

export type ConnectionState = 'initiated' | 'alerting' | 'connected' | 'hold' | 'queued' | 'fail';
export type AgentState = 'null' | 'notReady' | 'ready' | 'busy' | 'workingAfterCall';
export type Figures = {entered: number, answered: number, abandoned: number, moved: number, waited: number};

// what the gate tells

/** tables of lines by their keys, null for what is gone; whether the desk answers, when it last did, and the server's clock, in seconds */
export type Told = {live: boolean, answered: number, clock: number, [table: string]: any};
/** asked: what was asked for; ahead: the server's clock less this one's, in milliseconds */
export type News = {kind: 'picture' | 'change', told: Told, asked: string, ahead: number, received: number};
/** what the worker hears: why nothing came, and each second that it is alive */
export type Lost = {kind: 'lost', status: number, text: string};
export type Heard = News | Lost | {kind: 'beat'};
/** what a page says to the worker. asked: of the gate, nothing where the page leaves; isOwn: the page of an agent who works with
 *  it; isNarrow: over HTTP/1.1; lock: which it holds as long as it is there; said: how many said something before */
export type Page = {asked: string, isOwn: boolean, isShown: boolean, isNarrow: boolean, lock: string | false, said: number};
export type Port = {onmessage: ((event: MessageEvent) => void) | null, postMessage: (one: Heard) => void};
/** gives what asks for something else */
export type Listen = (hear: (heard: Heard) => void, isOwn?: boolean) => (asked: string) => void;

/** what is left out of an event of a call: `callCleared` has no device */
export type CallReport = {number: number, moment: number, call: number, device: string, group?: string, waited?: number,
  event: 'serviceInitiated' | 'originated' | 'queued' | 'delivered' | 'diverted' | 'established' | 'held' | 'retrieved'
    | 'transferred' | 'failed' | 'connectionCleared' | 'callCleared',
  cause?: 'newCall' | 'distributed' | 'deflected' | 'transferred' | 'noAnswer'};
export type AgentReport = {number: number, moment: number, agent: string, device: string, group?: string,
  event: 'agentLoggedOn' | 'agentLoggedOff' | 'agentNotReady' | 'agentReady' | 'agentBusy' | 'agentWorkingAfterCall'};
export type Report = CallReport | AgentReport;

// the state

/** queued: since when the caller waits who waits longest, in the queue or while it rings; next: the agent who gets the next call */
export type Group = {id: string, name: string, ring: number, wrap: number, priority: number, waiting: number, ringing: number,
  queued: number, counts: Partial<Record<Doing, number>>, next: string};
/** whether a group is closed by its hours, and where rules moved its callers lately */
export type Rule = {closed?: boolean, to?: string};
/** what an agent does, since when, and for which group; calls: those at the agent's station */
export type Agent = {id: string, name: string, doing: Doing, since: number, group: string | null, station: string | null,
  groups: string[], pending: string | null, calls: number[]};
/** a call, by the connection that says most of it, which is `at` a device; direct: no group gave it to the agent there, and `group`
 *  is the one that the caller came from; queued: since when the caller waits */
export type Call = {number: number, caller: string, begun: number, state: ConnectionState | 'none', since: number,
  group: string | null, at: string, direct: boolean, queued: number};

// the day
/** within: answered in time; late: abandoned later than that; longest: wait of an answered call; handled, handling: calls that
 *  agents are done with, and seconds for them; closed: calls that a rule ended; the last four are of stays in a queue alone */
export type Sums = Figures & {within: number, late: number, longest: number, handled: number, handling: number, closed: number,
  answeredStay: number, abandonedStay: number, withinStay: number, lateStay: number};
/** top and end: how many more wait than at the day's begin, at most and in the end */
export type Step = Sums & {top: number, end: number};
/** a step where it is shown; beside: the same one of another day */
export type Quarter = Sums & {at: number, peak: number, running?: boolean, beside: Sums | null};
/** what ended in the last half hour; since when its level or its losses are an alarm, if they are */
export type HalfHour = Sums & {levelSince: number | null, lostSince: number | null};
export type Line = {steps: Map<number, Step>, sum: Sums, balance: number};

// what is reckoned of them

export type Doing = 'ready' | 'ringing' | 'busy' | 'hold' | 'own' | 'workingAfterCall' | 'notReady' | 'null';
export type Severity = 'none' | 'calm' | 'long' | 'bad';
export type Limits = {limit: number, goal: number, lost: number, long: number, bad: number};
export type Share = {byStay: number | null, level: number | null, levelSeverity: Severity, lost: number | null, lostSeverity: Severity};
/** wait: of the call that waits longest, since `queued`; next: the agent who gets the next call; level: the share answered in time,
 *  byStay: the same by the last stay in a queue; lost: the share that gave up */
export type GroupLine = Sums & Share & {rule: Rule | undefined, id: string, name: string, priority: number, waiting: number,
  ringing: number, queued: number, wait: number | null, severity: Severity,
  counts: Record<Doing, number>, loggedOn: number, next: Agent | null, limits: Limits};
/** group: none of the desk itself; since: if the figures show it, else 0; weight: of two of a kind the greater is worse */
export type Alarm = {key: string, kind: string, group: string, since: number, weight: number, values: () => Values};
/** since: when it began, as far as is known; last: when it was there for the last time, in milliseconds; seen: whether somebody
 *  said so in this browser */
export type Known = {since: number, last: number, seen: boolean};
/** of the office's file of a customer: its address, with {caller} in it, and the schemes that it may have */
export type Customer = {address: string, schemes: string[]};
/** what a word has values for */
export type Values = Record<string, string | number>;
/** of a line */
export type Cell = (line: any) => string | number;
export type Figure = (line: any) => number | null;
/** head: the word at the top, and after it classes: wide and least are left out on a small screen, and day is known once the day
 *  has been counted; text: a line's cell, else the line's member of that name, or a figure of seconds or a share; file: the cell in
 *  a file; press: the name of the button that it is */
export type Column = {head: string, kind?: string, day?: boolean, text?: Cell, seconds?: Figure, share?: Figure,
  file?: (line: any) => string | number | null, severity?: (line: any) => string,
  press?: string | ((line: any) => string | false),
  /** of a share, in percent */ goal?: (line: any) => number};
/** look: first, second or third, by which the style distinguishes them, with colour and without; a bar, or a line */
export type Series = {name: string, look: string, value: Figure, isLine?: boolean};

/** whether the desk is known; gaveWay: to other pages of this browser */
export type Course = {kind: 'begins' | 'live'} | {kind: 'lost', why: string, status: number, gaveWay: boolean};

// what a page is made of

/** an element's attributes: true is one without a value, false or nothing removes it, and a function handles an event */
export type Attributes = Record<string, string | number | boolean | undefined | ((event: any) => void)>;
export type Made = {tag: string, attributes: Attributes, parts: Part[]};
/** what is in an element; of an element as it is, a symbol */
export type Part = Made | string | number | boolean | undefined | symbol;
/** of an element, or its id */
export type Sets = (place: any, attributes: Attributes) => void;
export type Puts = (place: any, ...parts: Part[]) => void;

/** of an event */
export type Sentence = {moment: number, number: string, words: string};

// functions

export type Order<T> = (one: T, other: T) => number;
export type Concerns = (state: import('./desk.js').State, report: any, chosen: (group: string) => boolean) => boolean | undefined;
export type Signed = (area: string, signs: Record<string, string>) => Record<string, {sign: string, words: string}>;

export type Search = <T>(lines: T[], find: string, texts: (line: T) => string[]) => T[];
/** of a share that misses its goal by so many percent, of which so many are bad */
export type Judge = (share: number | null, missed: number, far: number) => Severity;
export type CellOf = (column: Column, line: any) => string | number;
export type Tile = (head: string, value: string | number, note?: string | false, severity?: string, formula?: string) => Part;
/** a figure as bars, or as a line */
export type Charted = (head: string, look: string, value: Figure, isLine?: boolean) => Series;
/** by the key of its row, and the call in it */
export type Pressed = (key: string, line: Call | undefined, button: HTMLElement) => void;
/** leave: what the button does; late: that nobody answers yet, and why */
export type OpenSession = (leave: () => void, late?: (why: string) => void) => Promise<Who>;

/** head: of a share of that name, and what it means */
export type Judged = (head: string, name: 'level' | 'lost') => Column;
/** and, where there is one, the first of another day */
export type Besides = (first: Series, ...more: Series[]) => Series[];
export type Shows = (one: Series, step: any) => number | null;
/** then: of which day the line beside is */
export type Charts = (steps: Quarter[], then: string | undefined, settings: Settings) => Part[];
/** of a step what is written below it, where each has so much room, and what it is called */
export type Steps = {under: (each: number) => (step: any, place: number) => string | false, called: (step: any) => string,
  /** at its middle, and not where it begins */ isMiddle?: boolean};
/** times: what is shown of a value; top: the greatest value; goal: a line across */
export type Chart = (how: Steps, steps: any[], title: string, series: Series[], times?: number, top?: number, goal?: number) => Part;
export type SettingsOf = (said: Iterable<[string, string]>, before?: Settings) => Settings;
export type Labelled = (setting: string[], attributes?: Attributes) => Part;
/** what: the word for what is chosen */
export type Asks = (question: string, choices?: string[][], chosen?: string, what?: string) => Promise<string | null>;

// who leads groups
export type LeadOf = {groups: Set<string>, requester: string, invoke: number, begin(who: Who): void,
  leads(agent: Agent): boolean, may(line: Call): boolean,
  ofAgent(state: import('./desk.js').State, agent: string): Promise<void>,
  ofCall(state: import('./desk.js').State, line: Call): Promise<void>,
  ofGroup(state: import('./desk.js').State, group: string): Promise<void>,
  send(service: string, members: object, what: string, who: string, to?: string): Promise<void>};

// what a view draws
/** what all is reckoned from */
export type Looked = {state: import('./desk.js').State, day: import('./figures.js').Day, now: number};
/** counted: whether the day's events have been read; all: the chosen groups together; lines: one for each; past: another day, so
 *  many days before; empty: says why nothing is shown; filter: sets filters, and shows a view; redraw: draws all anew */
export type Drawn = Looked & {settings: Settings, counted: boolean, recent: Report[], lines: GroupLine[],
  all: ReturnType<typeof import('./lines.js').totals>, past: (back: number) => import('./figures.js').Day | undefined,
  empty: (text: string) => void, lead: LeadOf,
  filter: (wanted: Record<string, string>, view?: string) => void, redraw: () => void};
