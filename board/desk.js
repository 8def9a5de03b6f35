// The desk as the gate tells it: tables of lines, in which null is for what is gone. No document, no network.

// a tick comes each ten seconds: what is so many seconds overdue nobody ends
export const GRACE = 25;
// events that are kept
const RECENT = 4000;

// the order of devices and agents: that of the number which 1 and their digits make
export const order = (one = '', other = '') => one.length - other.length || (one < other ? -1 : Number(one > other));

/** @type {Record<string, (line: any, id: string) => any>} */
const LINES = {
  groups: (line, id) => ({id, name: '', ring: 0, wrap: 0, priority: 0, waiting: 0, ringing: 0, queued: 0, counts: {}, next: '', ...line}),
  agents: (line, id) => ({id, name: '', since: 0, group: null, station: null, groups: [], pending: null, calls: [], ...line}),
  rules: line => line,
  reasons: line => line.reason,
  calls: (line, id) => ({
    number: Number(id), state: 'none', since: 0, begun: line.since ?? 0, group: null, at: '', caller: '', direct: false,
    queued: line.since ?? 0, ...line,
  }),
};

export class State {
  last = 0;
  moment = 0;
  /** @type {Map<string, Group>} */ groups = new Map();
  /** @type {Map<string, Agent>} */ agents = new Map();
  /** @type {Map<string, Call>} */ calls = new Map();
  // what an office's rules do with a group's callers
  /** @type {Map<string, Rule>} */ rules = new Map();
  // why agents aren't ready, by the office's list
  /** @type {Map<string, string>} */ reasons = new Map();
  // the agent at a station
  /** @type {Map<string, string>} */ at = new Map();
  /** @type {Report[]} */ events = [];

  // An office's own names come before those of the plan.
  constructor(names = {groups: {}, agents: {}}) { this.names = /** @type {Record<string, Record<string, string>>} */ (names); }

  group(id = '') { return this.groups.get(id) ?? LINES.groups({}, id); }

  /** @returns {Agent} */
  agent(id = '') { return this.agents.get(id) ?? LINES.agents({doing: 'null'}, id); }

  nameOf(id = '', other = '') { return this.groups.get(id)?.name || other || id; }

  agentAt(device = '') { return this.agents.get(this.at.get(device) ?? ''); }

  /** @param {Told} told @param {boolean} isWhole whether all else is gone */
  take(told, isWhole) {
    for (const name of /** @type {const} */ (['groups', 'agents', 'calls', 'rules', 'reasons'])) {
      const lines = /** @type {Map<string, any>} */ (this[name]);
      if (isWhole) lines.clear();
      for (const [id, line] of Object.entries(told[name] ?? {})) {
        if (line === null) lines.delete(id);
        else lines.set(id, LINES[name]({...line, name: this.names[name]?.[id] ?? line.name ?? ''}, id));
      }
    }
    if (isWhole || told.agents) this.at = new Map([...this.agents.values()].flatMap(({id, station}) => station ? [[station, id]] : []));
    Object.assign(this, told.desk);
    this.events = [...isWhole ? [] : this.events, ...Object.values(told.events ?? {})].slice(-RECENT);
  }
}
