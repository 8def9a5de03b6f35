// The chosen groups: together as a few large numbers, all of each, and the wall.
import {order} from '../desk.js';
import {byId, make, put, set, table, withNumber} from '../draw.js';
import {averageHandling, averageWait} from '../figures.js';
import {clock, named, office, percent, SIGN, waits, word} from '../words.js';

// rows of the wall grow and shrink to so many times their size
const SORTED_EVERY = 5000, GROWS = 1.9, LEAST = 0.35;

// A share of the day, and what it means.
/** @type {Judged} */
const judged = (head, name) => ({
  head, share: line => line[name], goal: ({limits: {goal, lost}}) => name === 'lost' ? lost : goal,
  severity: line => line.counted ? line[`${name}Severity`] : '',
});
// What an office's rules do with a group's callers.
/** @param {GroupLine & {goes?: string}} line */
const ruled = ({rule, goes}) =>
  [rule?.closed && word('rule.closed'), rule?.to && word('rule.to', {to: goes ?? rule.to})].filter(Boolean).join(' · ');
/** @type {(Column|string)[]} */
const FIRST = [
  {head: 'state state', text: line => [waits(line), ruled(line)].filter(Boolean).join(' · ')},
  'waiting',
  {head: 'longest', text: line => clock(line.wait), file: line => line.wait && Math.round(line.wait)},
];
/** @type {Column[]} */
const [READY, ON_CALLS] = [
  {head: 'ready', text: line => `${line.counts.ready} / ${line.loggedOn}`, file: line => line.counts.ready,
    severity: line => line.waiting && !line.loggedOn ? 'bad' : ''},
  {head: 'onCalls wide', text: ({counts}) => counts.busy + counts.hold},
];

const rows = table('queues-table', [
  {head: 'group name', press: 'agents', text: withNumber, file: line => line.name},
  ...FIRST,
  'ringing mid wide',
  READY,
  'loggedOn filed',
  {head: 'next name mid wide', text: ({next}) => next ? named(next.name || next.id) : '–'},
  ON_CALLS,
  {head: 'afterCall wide', text: line => line.counts.workingAfterCall},
  {head: 'notReady wide', text: line => line.counts.notReady},
  judged('inTime least', 'level'),
  {head: 'byStay wide', share: line => line.byStay},
  'entered wide day', 'answered wide day', 'abandoned wide day',
  judged('lost wide', 'lost'),
  'moved wide day',
  {head: 'average least', seconds: averageWait},
  {head: 'handling wide', seconds: averageHandling},
  'priority least',
  'closed least day',
  {head: 'number filed', text: line => line.id},
  {head: 'act words lead', press: 'priority'},
]);

/** @type {View} */
export const queues = {
  file: rows.file,
  draw({lines, lead, counted, state}) {
    rows.draw(lines.map(line => (
      {...line, counted, goes: goes(state, line), key: line.id, act: lead.groups.has(line.id) && word('head.priority')})));
  },
};

// The name of where a group's callers go.
/** @param {State} state @param {GroupLine} line */
const goes = (state, {rule}) => rule?.to && named(state.nameOf(rule.to, office.names.stations[rule.to]));

const wallRows = table('wall-table',
  [{head: 'group name', text: line => named(line.name)}, ...FIRST, READY, ON_CALLS, judged('inTime wide', 'level')]);
let sorted = 0, shown = 0, place = 0, places = [''];

// The groups whose callers wait longest, as many as fit.
/** @type {View} */
export const wall = {
  file: wallRows.file,
  draw({lines, counted, state, settings}, anew) {
    const late = anew || Date.now() - sorted > SORTED_EVERY || places.length !== lines.length;
    if (late) {
      sorted = Date.now();
      places = [...lines].sort((one, other) => (other.wait ?? -1) - (one.wait ?? -1) || other.waiting - one.waiting
        || order(one.id, other.id)).map(({id}) => id);
    }
    const found = places.flatMap(key => lines.filter(({id}) => id === key).map(line => ({...line, counted, goes: goes(state, line), key})));
    wallRows.draw(found);
    const {top} = byId('wall-table').tBodies[0].getBoundingClientRect();
    if (late || top !== place) fit(place = top, settings.rows);
    const rest = found.slice(shown);
    put('wall-rest', rest.length > 0 && word('wall.rest', {n: rest.length, waiting: rest.reduce((sum, {waiting}) => sum + waiting, 0)}));
  },
};

// Shows what has room; few rows grow, and more shrink where so many are wanted. A page that may be scrolled shows all.
function fit(top = 0, least = 1) {
  const whole = byId('wall-table'), rows = [...whole.tBodies[0].rows];
  const scrolls = getComputedStyle(document.body).overflowY !== 'hidden', room = innerHeight - top - 8;
  const hide = () => rows.forEach((row, number) => set(row, {hidden: number >= shown}));
  whole.style.removeProperty('--grow');
  shown = rows.length;
  hide();
  const measured = () => rows.map(row => row.getBoundingClientRect().bottom - top);
  let ends = measured();
  if (scrolls) return;
  const last = ends[Math.min(least, rows.length) - 1], wanted = least < rows.length ? last + ends[0] : last;
  const shrinks = least > 1 && wanted > room;
  if (shrinks) {
    whole.style.setProperty('--grow', Math.max(LEAST, room / wanted - 0.02).toFixed(2));
    ends = measured();
  }
  const all = ends[shown - 1];
  // a line below says what the others have
  if (all > room) shown = Math.max(1, ends.filter(end => end <= room - 0.8 * ends[0]).length);
  hide();
  if (shown === rows.length && !shrinks) for (let grow = Math.min(GROWS, room / all), wide = 1; grow > 1; grow /= Math.max(wide, 1.05)) {
    whole.style.setProperty('--grow', grow.toFixed(2));
    wide = whole.offsetWidth / byId('totals').offsetWidth;
    if (wide <= 1 && whole.getBoundingClientRect().bottom <= innerHeight) break;
    whole.style.removeProperty('--grow');
  }
}

/** @param {Settings} settings */
export const levelOf = settings => {
  const several = Object.keys(settings).some(name => name.startsWith('limit.'));
  return {limit: several ? word('tile.limits') : word('tile.limit', {n: settings.limit}), what: word(`set.level.${settings.level}`)};
};

/** @param {Drawn} drawn */
export function drawTotals({all, settings, counted}) {
  const {counts, lost, levelSeverity, lostSeverity} = all, none = all.waiting && !counts.ready, values = levelOf(settings);
  /** @type {Tile} */
  const tile = (head, value, note = '', severity = 'none', formula = '') => make('div', {'data-severity': severity},
    make('dt', word(head, values)), make('dd', make('b', value), make('small', note), make('small.formula', formula)));
  /** @type {Tile} */
  const day = (head, value, note, severity, formula) => tile(head, counted ? value : '…', note, counted ? severity : 'none', formula);
  const judged = (severity = '', goal = 0, share = '') => counted
    && (severity === 'none' ? '' : `${SIGN[severity]} `) + share + word('tile.goal', {goal: percent(goal / 100)});
  put('tiles',
    tile('head.waiting', all.waiting, all.ringing > 0 && word('tile.ringing', {n: all.ringing})),
    tile('head.longestWait', clock(all.wait), all.wait !== null && waits(all), all.severity),
    tile('tile.ready', counts.ready, `${none ? '▲ ' : ''}${word('tile.loggedOn', {n: all.loggedOn})}`, none ? 'long' : 'none'),
    day('tile.level', percent(all.level, settings.goal), judged(levelSeverity, settings.goal), levelSeverity, word('tile.of', values)),
    day('head.abandoned', all.abandoned, [
      lost !== null && judged(lostSeverity, settings.lost, `${percent(lost, settings.lost)}, `),
      all.closed && word('tile.closed', {n: all.closed}),
    ].filter(Boolean).join(', '), lostSeverity),
    day('head.answered', all.answered),
    day('head.average', clock(averageWait(all))),
    day('head.handling', clock(averageHandling(all))),
    day('tile.occupancy', percent(all.occupancy)),
    tile('head.onCalls', counts.busy + counts.hold),
    tile('head.afterCall', counts.workingAfterCall),
    tile('head.notReady', counts.notReady));
}
