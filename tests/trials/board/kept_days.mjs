// Files of days as acd-records writes them, drawn at random, and what they come to, reckoned here and nowhere else.
import {mkdir, writeFile} from 'node:fs/promises';
import {join} from 'node:path';

const LIMIT = 20, GOAL = 80, LOST = 5;
const STEPS = 4, FIRST = 8, LAST = 19;
const HEADS = {
  groups: ['begin', 'group', 'entered', 'answered', 'abandoned', 'moved', 'limit', 'in_time', 'abandoned_late', 'service_level', 'waited',
    'longest', 'most_waiting', 'handled', 'handling', 'closed',
    'answered_by_stay', 'abandoned_by_stay', 'in_time_by_stay', 'late_by_stay', 'service_level_by_stay', 'group_name', 'formulas'],
  agents: ['day', 'agent', 'name', 'logged_on', 'ready', 'talking', 'wrap_up', 'rings_not_answered', 'rings_refused', 'rings_hung_up',
    'rings', 'calls', 'own_calls', 'not_ready', 'first_on', 'last_on', 'groups',
    'group_names', 'formulas'],
  records: ['number', 'caller', 'formulas'],
};
const DAY = 86400000;
export const after = (day, days = 1) => new Date(Date.parse(`${day}T00:00Z`) + days * DAY).toISOString().slice(0, 10);
export const weekdayOf = day => (new Date(`${day}T00:00Z`).getUTCDay() + 6) % 7 + 1;

/** Numbers that are always the same. */
function drawn(seed) {
  let state = seed;
  return most => { state = (1103515245 * state + 12345) % 2147483648; return Math.floor(state / 65536) % (most + 1); };
}

const two = number => `${number}`.padStart(2, '0');

function quarter(draw, day, hour, step, [group, name], busy) {
  const entered = draw(busy), abandoned = draw(3) ? 0 : Math.min(entered, draw(2)), answered = entered - abandoned;
  const waits = Array.from({length: answered}, () => draw(27)), late = draw(abandoned);
  const within = waits.filter(wait => wait <= LIMIT).length, waited = waits.reduce((sum, one) => sum + one, 0);
  const handling = answered * (120 + draw(120));
  return {begin: `${day} ${two(hour)}:${two(15 * step)}:00`, group, entered, answered, abandoned, moved: draw(1), limit: LIMIT,
    in_time: within, abandoned_late: late, service_level: '', waited,
    longest: answered ? Math.max(...waits) : '', most_waiting: draw(busy), handled: answered, handling, closed: 0,
    answered_by_stay: answered, abandoned_by_stay: abandoned, in_time_by_stay: within,
    late_by_stay: late, service_level_by_stay: '', group_name: name, formulas: 2};
}

function agentsDay(draw, day, [agent, name], groups) {
  const ready = 3600 + draw(9000), talking = 3600 + draw(9000), work = draw(3000), pause = draw(3600), calls = 10 + draw(30);
  const [missed, refused, hung] = [draw(2), draw(1), draw(1)];
  return {day, agent, name, logged_on: ready + talking + work + pause, ready, talking, wrap_up: work, rings_not_answered: missed,
    rings_refused: refused, rings_hung_up: hung, rings: calls + missed + refused + hung,
    calls, own_calls: draw(3), not_ready: pause, first_on: `${day} 08:00:00`, last_on: `${day} 18:00:00`,
    groups: groups.map(([group]) => group).join(' '), group_names: groups.map(([, name]) => name).join('; '), formulas: 2};
}

const quoted = value =>
  /[",\n]/.test(`${value}`) ? `"${`${value}`.replaceAll('"', '""')}"` : /^0\d/.test(`${value}`) ? `'${value}` : `${value}`;

async function lay(folder, kind, day, rows, heads = HEADS[kind]) {
  await mkdir(join(folder, kind), {recursive: true});
  await writeFile(join(folder, kind, `${day}.csv`),
    `\ufeff${[heads, ...rows.map(row => heads.map(head => row[head]))].map(row => row.map(quoted).join(',')).join('\n')}\n`);
}

/** So many days until one, of these groups and agents: the rows that were written. Saturdays and Sundays are short. */
export async function laid(folder, until, count, groups, agents) {
  const found = {groups: [], agents: []}, draw = drawn(7);
  for (let back = count - 1; back >= 0; back--) {
    const day = after(until, -back), isShort = weekdayOf(day) > 5, rows = [], people = [];
    for (let hour = FIRST; hour < (isShort ? 12 : LAST); hour++) for (let step = 0; step < STEPS; step++) for (const group of groups) {
      rows.push(quarter(draw, day, hour, step, group, (isShort ? 2 : 6) + (hour === 10 ? 6 : 0)));
    }
    for (const [place, agent] of agents.entries()) {
      if (!isShort || place % 3 === 0) {
        people.push(agentsDay(draw, day, agent, [groups[place % groups.length], groups[(place + 1) % groups.length]]));
      }
    }
    await lay(folder, 'groups', day, rows);
    await lay(folder, 'agents', day, people);
    await lay(folder, 'records', day, [{number: 1, caller: '0301234', formulas: 2}]);
    found.groups.push(...rows.map(row => ({...row, day, hour: Number(row.begin.slice(11, 13))})));
    found.agents.push(...people);
  }
  return found;
}

/** A day of a program of before: it says by no formulas how it was counted. */
export const older = (folder, day) =>
  lay(folder, 'groups', day, [quarter(drawn(1), day, 9, 0, ['100', 'Billing'], 9)], HEADS.groups.slice(0, -1));

const total = (rows, name) => rows.reduce((sum, row) => sum + Number(row[name]), 0);
/** A digit more where it is its goal in whole percent alone. */
const share = (part, whole, goal = NaN) => {
  const exact = 100 * part / whole, rounded = Math.round(exact);
  return !whole ? '–' : rounded === goal && Math.abs(exact - goal) > 1e-9 ? `${exact.toFixed(1)}%` : `${rounded}%`;
};
const clock = (sum, count) => {
  if (!count) return '–';
  const whole = Math.floor(sum / count), hours = Math.floor(whole / 3600), minutes = Math.floor(whole / 60) % 60;
  return hours ? `${hours}:${two(minutes)}:${two(whole % 60)}` : `${minutes}:${two(whole % 60)}`;
};
const grouped = number => new Intl.NumberFormat('en-GB').format(number);

/** The cells of a line of groups behind its first, as the page has to show them in English; the last one is of a single group. */
export function cellsOfGroups(rows, days) {
  const [entered, answered, abandoned] = ['entered', 'answered', 'abandoned'].map(name => total(rows, name));
  const one = new Set(rows.map(row => row.group)).size < 2;
  const [level, byStay] = [GOAL, NaN].map(goal => share(total(rows, 'in_time'), answered + total(rows, 'abandoned_late'), goal));
  return [grouped(days), grouped(entered), grouped(answered), grouped(abandoned), share(abandoned, answered + abandoned, LOST),
    grouped(total(rows, 'moved')), level, byStay, clock(total(rows, 'waited'), answered),
    answered ? clock(Math.max(...rows.map(row => Number(row.longest))), 1) : '–', clock(total(rows, 'handling'), total(rows, 'handled')),
    '0', one ? `${Math.max(0, ...rows.map(row => row.most_waiting))}` : '–'];
}

export function cellsOfAgents(rows, days) {
  const busy = total(rows, 'talking') + total(rows, 'wrap_up');
  return [grouped(days), grouped(total(rows, 'calls')),
    ...['logged_on', 'ready', 'talking', 'wrap_up', 'not_ready'].map(name => clock(total(rows, name), 1)),
    share(busy, busy + total(rows, 'ready')),
    ...['own_calls', 'rings', 'rings_not_answered', 'rings_refused', 'rings_hung_up'].map(name => grouped(total(rows, name)))];
}
