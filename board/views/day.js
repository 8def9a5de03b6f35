// The day by quarters of an hour, as tables and charts; yesterday and the same weekday beside it.
import {chart, WIDE} from '../chart.js';
import {put, table} from '../draw.js';
import {abandonment, averageHandling, averageWait, level, levelByStay, STEP, sumOf} from '../figures.js';
import {shown} from '../settings.js';
import {dayOf, timeOfDay, word} from '../words.js';
import {levelOf} from './groups.js';

const EVERY = 10000;
let drawn = 0, answered = false;

/** @type {OfSums} */
const inTime = sum => level(sum, answered);
/** @type {OfSums} */
const longest = sum => sum.answered ? sum.longest : null;
/** @type {(Column|string)[]} */
const FIGURES = [
  'entered', 'answered', 'abandoned', {head: 'lost', share: abandonment}, 'moved wide', {head: 'inTime', share: inTime},
  {head: 'byStay wide', share: sum => levelByStay(sum, answered)},
  {head: 'average wide', seconds: averageWait}, {head: 'longestWait wide', seconds: longest},
  {head: 'handling wide', seconds: averageHandling},
  'closed wide',
];
const quarters = table('steps-table', [{head: 'time words', text: step => timeOfDay(step.at, 'short')}, ...FIGURES, 'peak wide']);
const days = table('days-table', [{head: 'day words', text: line => line.key}, ...FIGURES]);

/** @param {Drawn} drawing */
export function draw({day, counted, settings, now, past, lines}, anew = false) {
  if (!counted || (!anew && Date.now() - drawn < EVERY)) return;
  drawn = Date.now();
  answered = settings.level === 'answered';
  const {group} = settings, lineOf = (/** @type {Day} */ of) => group ? of.line(group) : of.all;
  const firstOf = (begin = 0) => Math.floor(begin / STEP) * STEP;
  const waiting = lines.reduce((sum, line) => !group || line.id === group ? sum + line.waiting : sum, 0);
  const found = day.steps(lineOf(day), waiting, now), first = firstOf(day.begin);
  // steps of other days, by seconds after their begin
  const others = [1, 7].flatMap(back => {
    const of = past(back);
    return of ? {back: `${back}`, sum: lineOf(of).sum, name: dayOf(of.begin),
      steps: new Map([...lineOf(of).steps].map(([number, step]) => [number * STEP - firstOf(of.begin), step]))} : [];
  });
  const beside = others.find(({back}) => back === settings.beside), full = firstOf(now);
  /** @type {Quarter[]} */ const steps = found.map((step, place) => (
    {...step, running: place === found.length - 1, beside: beside?.steps.get(step.at - first) ?? null}));
  // whole, and until the last full quarter of an hour
  const part = (day = '', /** @type {Sums[]} */ steps) =>
    ({key: word('day.until', {day, time: timeOfDay(full, 'short')}), ...sumOf(steps)});
  const today = word('day.today');
  const rows = [{key: today, ...lineOf(day).sum}, part(today, found.filter(step => step.at < full)),
    ...others.flatMap(({name, sum, steps}) =>
      [part(name, [...steps].flatMap(([after, step]) => after < full - first ? step : [])), {key: name, ...sum}])];
  days.draw(rows.map(row => ({...row, counted})));
  put('charts', ...charts(steps, beside?.name, settings));
  quarters.draw(steps.map(step => ({...step, counted, key: `${step.at}`})));
}

// The time of whole hours, as many as have room.
const BY_TIME = {
  under(each = 0) {
    const apart = 3600 * ([1, 2, 3, 4, 6, 8, 12].find(hours => hours * 4 * each >= WIDE) ?? 24);
    return ({at = 0}) => shown(at) % apart === 0 && timeOfDay(at, 'short');
  },
  called: ({at = 0}) => timeOfDay(at, 'short'),
};

/** @type {Charts} */
const charts = (steps, then, settings) => {
  /** @type {Charted} */
  const bar = (head, look, value, isLine = false) => ({name: word(`head.${head}`), look, value, isLine});
  /** @type {Charted} */
  const line = (head, look, value) => bar(head, look, value, true);
  /** @type {Besides} */
  const beside = (first, ...more) => [first, ...more,
    ...then ? [{...first, name: `${first.name}, ${then}`, look: 'third', isLine: true,
      value: (/** @type {Quarter} */ step) => step.beside && first.value(step.beside)}] : []];
  return [
    chart(BY_TIME, steps, word('chart.calls'), beside(bar('answered', 'first', step => step.answered),
      bar('abandoned', 'second', step => step.abandoned), bar('moved', 'third', step => step.moved))),
    chart(BY_TIME, steps, word('chart.level', levelOf(settings)), beside(line('inTime', 'first', inTime)), 100, 100, settings.goal),
    chart(BY_TIME, steps, word('chart.wait'),
      beside(line('average', 'first', averageWait), line('longestWait', 'second', longest)), 1 / 60),
    chart(BY_TIME, steps, word('chart.peak'), [bar('waiting', 'first', step => step.peak)]),
  ];
};

export const file = () => [...days.file(), [], ...quarters.file()];
