// What a view shows of the chosen groups, agents and calls, by the settings and the time.
import {order} from './desk.js';
import {abandonment, level, levelByStay, occupancy} from './figures.js';
import {areSome, chosenOf, limitsOf, settings} from './settings.js';

// so many percent below its goal a service level is bad
const FAR = 15, STATES = ['queued', 'alerting', 'hold', 'fail', 'connected', 'initiated', 'none'];

export const noCounts = () => ({ready: 0, ringing: 0, busy: 0, hold: 0, own: 0, workingAfterCall: 0, notReady: 0, null: 0});

/** @param {number|null} wait @returns {Severity} */
export const severity = (wait, {long = 0, bad = 0}) => wait === null ? 'none' : wait >= bad ? 'bad' : wait >= long ? 'long' : 'calm';

/** @param {Sums} sum @returns {Share} */
function shares(sum, {goal, lost: most} = limitsOf()) {
  const reached = level(sum, settings.level === 'answered'), lost = abandonment(sum);
  /** @type {Judge} */
  const judged = (share, missed, far) => share === null ? 'none' : missed <= 0 ? 'calm' : missed > far ? 'bad' : 'long';
  return {
    byStay: levelByStay(sum, settings.level === 'answered'),
    level: reached, levelSeverity: judged(reached, goal - 100 * (reached ?? 0), FAR),
    lost, lostSeverity: judged(lost, 100 * (lost ?? 0) - most, most),
  };
}

/** @param {Looked} looked @returns {GroupLine[]} */
export function groupLines({state, day, now}) {
  const chosen = chosenOf(), groups = [...state.groups.values()].filter(({id}) => chosen(id)).sort((one, other) => order(one.id, other.id));
  return groups.map(({id, name, priority, waiting, ringing, queued, counts: has, next}) => {
    const wait = waiting || ringing ? Math.max(0, now - queued) : null, limits = limitsOf(id), {sum} = day.line(id);
    const counts = {...noCounts(), ...has};
    return {
      rule: state.rules.get(id), id, name: name || id, priority, waiting, ringing, queued, wait, severity: severity(wait, limits), limits,
      counts, loggedOn: Object.values(counts).reduce((all, one) => all + one), next: next ? state.agent(next) : null, ...sum,
      ...shares(sum, limits),
    };
  });
}

// The agents of a chosen group, now or today; all if none was chosen.
/** @param {Looked} looked */
export function chosenAgents({state, day}) {
  const chosen = chosenOf();
  return [...state.agents.values()].filter(agent => !areSome() || day.groupsOf(agent).some(group => chosen(group)));
}

// An agent of several groups counts once.
/** @param {Looked} looked @param {GroupLine[]} lines */
export function totals(looked, lines) {
  const {day, now} = looked, counts = noCounts(), agents = chosenAgents(looked), {sum} = day.all;
  for (const {doing} of agents) counts[doing]++;
  const waits = lines.flatMap(({wait}) => wait ?? []);
  const worst = /** @type {Severity[]} */ (['bad', 'long', 'calm']).find(one => lines.some(line => line.severity === one));
  return {
    waiting: lines.reduce((all, {waiting}) => all + waiting, 0), ringing: lines.reduce((all, {ringing}) => all + ringing, 0),
    wait: waits.length ? Math.max(...waits) : null, severity: worst ?? 'none', counts, loggedOn: agents.length - counts.null,
    ...sum, ...shares(sum), occupancy: occupancy(agents.map(({id}) => day.agent(id, now))),
  };
}

// The live calls: those that wait first, the longest first.
/** @param {Looked} looked */
export function callLines({state}) {
  const chosen = chosenOf(), rank = (/** @type {Call} */ call) => STATES.indexOf(call.state);
  return [...state.calls.values()].filter(({group}) => !areSome() || chosen(group ?? ''))
    .sort((one, other) => rank(one) - rank(other) || one.since - other.since || one.number - other.number);
}

// The line whose number is looked for, or else all that have it in their texts.
/** @type {Search} */
export const search = (lines, find, texts) => {
  const text = find.trim().toLowerCase(), exact = text ? lines.filter(line => texts(line)[0] === text) : lines;
  return exact.length ? exact : lines.filter(line => texts(line).join(' ').toLowerCase().includes(text));
};
