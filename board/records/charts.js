// Charts of the sums: a step for each line.
import {chart, WIDE} from '../chart.js';
import {settings} from '../settings.js';
import {plain, word} from '../words.js';
import {keyWords, nameIn} from './choice.js';
import {levelName} from './sheets.js';

// seconds; how wide a letter is, and how many a name has at least
const HOUR = 3600, LETTER = 7, LEAST = 6;

const short = (text = '', most = LEAST) => text.length > most ? `${text.slice(0, most - 1)}…` : text;

/** @type {Charted} */
const bar = (head, look, value, isLine = false) => ({name: word(`head.${head}`), look, value, isLine});

// A figure of a line; nothing where its days have no records.
/** @returns {Figure} */
const of = (name = '') => line => line[name] ?? null;

/** @param {Sum} sum */
function steps(sum) {
  const said = (/** @type {Recorded} */ {key}) => plain(sum.by === 'each' ? nameIn(sum, key) : keyWords(sum, key));
  return {
    under: (each = 0) => (/** @type {Recorded} */ line, place = 0) =>
      place % Math.ceil(WIDE / each) === 0 && short(said(line), Math.max(LEAST, Math.floor(each / LETTER))),
    called: said,
    isMiddle: true,
  };
}

/** @param {Sum} sum */
export function charts(sum) {
  const {limits, lines, kind, by} = sum, how = steps(sum), isCourse = by !== 'each';
  if (!sum.all.days || by === 'weekday-hour' || !lines.length) return [];
  if (kind === 'agents') return [
    chart(how, lines, word('records.chart.hours'),
      [bar('talk', 'first', of('talking')), bar('afterCall', 'second', of('wrap_up')), bar('ready', 'third', of('ready'))], 1 / HOUR),
    chart(how, lines, word('records.chart.calls'), [bar('calls', 'first', of('calls'))]),
  ];
  const limit = limits.length === 1 ? word('tile.limit', {n: limits[0]}) : word('tile.limits'), what = word(`set.level.${settings.level}`);
  const calls = [bar('answered', 'first', of('answered')), bar('abandoned', 'second', of('abandoned')), bar('moved', 'third', of('moved'))];
  const waits = [bar('average', 'first', of('average_wait'), isCourse), bar('longestWait', 'second', of('longest'), true)];
  return [
    chart(how, lines, word('records.chart.calls'), calls),
    chart(how, lines, word('chart.level', {limit, what}), [bar('inTime', 'first', of(levelName), isCourse)], 100, 100, settings.goal),
    chart(how, lines, word('chart.wait'), isCourse ? waits : waits.slice(0, 1), 1 / 60),
  ];
}
