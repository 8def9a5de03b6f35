// The figures of a day, by quarters of an hour, and of each agent, as the gate counts them, and what is reckoned of them.
// No document, no network.

export const STEP = 900;

// of an agent's figures the place of the groups
const GROUPS = 8;
const FIGURES = /** @type {const} */ ([
  'entered', 'answered', 'abandoned', 'moved', 'waited', 'within', 'late', 'longest', 'handled', 'handling', 'closed',
  // by the last stay in a queue
  'answeredStay', 'abandonedStay', 'withinStay', 'lateStay']);

const noSums = () => /** @type {Sums} */ (Object.fromEntries(FIGURES.map(name => [name, 0])));

/** @returns {Sums} */
const sumsOf = (line = [0]) => /** @type {any} */ (Object.fromEntries(FIGURES.map((name, place) => [name, line[place] ?? 0])));

/** @param {Sums[]} steps */
export function sumOf(steps) {
  const sum = noSums();
  for (const step of steps) {
    for (const name of FIGURES) sum[name] = name === 'longest' ? Math.max(sum.longest, step.longest) : sum[name] + step[name];
  }
  return sum;
}

export class Day {
  moment = 0;
  // how much of it the gate has read, of 1
  share = 0;
  /** @type {Map<string, Line>} */ groups = new Map();
  /** @type {Map<string, any>} */ agents = new Map();
  // how many waited at once in all chosen groups
  /** @type {Map<number, number[]>} */ peaks = new Map();
  // of each group the last half hour
  /** @type {Map<string, HalfHour>} */ recent = new Map();
  // other days, by their begin
  /** @type {Map<number, Day>} */ past = new Map();

  constructor(begin = 0, chosen = (group = '') => true) {
    this.begin = begin;
    this.chosen = chosen;
  }

  /** @returns {Line} */
  line(group = '') {
    const old = this.groups.get(group), line = old ?? {steps: new Map(), sum: noSums(), balance: 0};
    if (!old) this.groups.set(group, line);
    return line;
  }

  /** @param {Told} told @param {boolean} isWhole */
  take({sums = {}, quarters = {}, peaks = {}, spent = {}, past = {}, recent = {}, day = {}}, isWhole) {
    if (isWhole) for (const table of [this.groups, this.agents, this.peaks, this.past, this.recent]) table.clear();
    Object.assign(this, day);
    for (const [group, [answered, abandoned, within, late, levelSince, lostSince]] of Object.entries(recent)) {
      this.recent.set(group, {...noSums(), answered, abandoned, within, late, levelSince, lostSince});
    }
    for (const [group, line] of Object.entries(sums)) Object.assign(this.line(group), {sum: sumsOf(line), balance: line[FIGURES.length]});
    for (const [key, line] of Object.entries(quarters)) {
      const [group, number] = key.split(' '), [top, end] = line.slice(FIGURES.length);
      this.line(group).steps.set(Number(number), {...sumsOf(line), top, end});
    }
    for (const [number, peak] of Object.entries(peaks)) this.peaks.set(Number(number), peak);
    for (const [agent, line] of Object.entries(spent)) this.agents.set(agent, line);
    for (const [begin, groups] of Object.entries(past)) this.past.set(Number(begin), dayOf(Number(begin), groups, this.chosen));
  }

  // The chosen groups together.
  /** @returns {Line} */
  get all() {
    const chosen = [...this.groups].flatMap(([group, line]) => this.chosen(group) ? line : []);
    const numbers = new Set(chosen.flatMap(({steps}) => [...steps.keys()]));
    let end = 0;
    const steps = [...numbers].sort((one, other) => one - other).map(number => {
      const [top, ends] = this.peaks.get(number) ?? [end, end];
      end = ends;
      return /** @type {[number, Step]} */ ([number, {...sumOf(chosen.flatMap(({steps}) => steps.get(number) ?? [])), top, end}]);
    });
    return {steps: new Map(steps), sum: sumOf(chosen.map(({sum}) => sum)), balance: chosen.reduce((sum, {balance}) => sum + balance, 0)};
  }

  // In seconds, from the agent's first event of the day on.
  agent(id = '', now = 0) {
    const counts = this.agents.get(id) ?? [];
    const [calls = 0, missed = 0, talk = 0, afterCall = 0, ready = 0, notReady = 0, since = now, does = ''] = counts;
    const of = (name = '', spent = 0) => spent + (does === name ? Math.max(0, now - since) : 0);
    return {
      calls, missed, talk: of('talk', talk), afterCall: of('afterCall', afterCall), ready: of('ready', ready),
      notReady: of('notReady', notReady),
    };
  }

  // Now, or else today.
  /** @param {Agent} agent @returns {string[]} */
  groupsOf({id, groups}) { return groups.length ? groups : this.agents.get(id)?.[GROUPS] ?? []; }

  // All steps up to now, where so many wait, with the most that waited at once in each.
  /** @param {Line} line */
  steps(line, waiting = 0, now = 0) {
    const earliest = Math.min(Math.floor(this.moment / STEP), ...this.all.steps.keys()), base = waiting - line.balance, found = [];
    let before = base;
    for (let number = Math.max(Math.floor(this.begin / STEP), earliest); number <= Math.floor(now / STEP); number++) {
      const counted = line.steps.get(number);
      found.push({...counted ?? {...noSums(), top: 0, end: 0}, at: number * STEP,
        peak: counted ? Math.max(before, base + counted.top) : before});
      if (counted) before = base + counted.end;
    }
    return found;
  }
}

// Another day, which is over.
function dayOf(begin = 0, groups = /** @type {Record<string, Record<string, number[]>>} */ ({}), chosen = (group = '') => true) {
  const day = new Day(begin, chosen);
  for (const [group, steps] of Object.entries(groups)) {
    const line = day.line(group);
    for (const [number, step] of Object.entries(steps)) line.steps.set(Number(number), {...sumsOf(step), top: 0, end: 0});
    line.sum = sumOf([...line.steps.values()]);
  }
  return day;
}

const share = (part = 0, whole = 0) => whole ? part / whole : null;

// The service level: answered in time, of the answered and those abandoned later, or of the answered alone.
export const level = ({within, answered, late} = noSums(), alone = false) => share(within, alone ? answered : answered + late);

// The same by the last stay in a queue.
export const levelByStay = ({withinStay, answeredStay, lateStay} = noSums(), alone = false) =>
  share(withinStay, alone ? answeredStay : answeredStay + lateStay);

export const abandonment = ({abandoned, answered} = noSums()) => share(abandoned, answered + abandoned);
export const averageWait = ({waited, answered} = noSums()) => share(waited, answered);
export const averageHandling = ({handling, handled} = noSums()) => share(handling, handled);

// Talk, hold and after-call work, of these and ready.
export function occupancy(agents = [{talk: 0, afterCall: 0, ready: 0}]) {
  const busy = agents.reduce((sum, {talk, afterCall}) => sum + talk + afterCall, 0);
  return share(busy, agents.reduce((sum, {ready}) => sum + ready, busy));
}
