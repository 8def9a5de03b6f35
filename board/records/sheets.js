// The table of the sums: lines of groups or agents; or of hours, with a column for each day of the week.
import {make, put, table} from '../draw.js';
import {settings} from '../settings.js';
import {clock, percent, word} from '../words.js';
import {hourWords, keyWords, weekdayWords} from './choice.js';

const NONE = '–', SHARES = ['level', 'lost'], WEEK = [1, 2, 3, 4, 5, 6, 7], HEATS = 4;

// A line of days without records has no figures.
/** @type {(head: string, name?: string) => Column} */
const plainly = (head, name = head) => ({head, text: line => line[name.split(' ')[0]] ?? NONE});
/** @type {(head: string, name: string) => Column} */
const seconds = (head, name) => ({head, seconds: line => line[name] ?? null});
/** @type {(head: string, name: string, goal?: number) => Column} */
const share = (head, name, goal = NaN) => ({head, share: line => line[name] ?? null, goal: () => goal});

const isOfAnswered = settings.level === 'answered';
const [LEVEL, BY_STAY] = isOfAnswered ? ['level_of_answered', 'level_of_answered_by_stay'] : ['level', 'level_by_stay'];
export const levelName = LEVEL;

const DAYS = 'days least', PEAK = plainly('peak wide', 'most_waiting');
/** @type {Kinds} */
const FIGURES = {
  groups: [
    DAYS, plainly('entered'), plainly('answered'), plainly('abandoned'), share('lost', 'lost', settings.lost),
    plainly('moved wide'), share('inTime', LEVEL, settings.goal), share('byStay wide', BY_STAY), seconds('average', 'average_wait'),
    seconds('longestWait', 'longest'), seconds('handling wide', 'average_handling'), plainly('closed wide'),
    PEAK,
  ],
  agents: [
    DAYS, plainly('calls'), seconds('loggedOn', 'logged_on'), seconds('ready', 'ready'), seconds('talk', 'talking'),
    seconds('afterCall', 'wrap_up'), seconds('notReady', 'not_ready'), share('occupancy', 'occupancy'),
    plainly('ownCalls wide', 'own_calls'), plainly('rings wide'),
    plainly('notAnswered wide', 'rings_not_answered'), plainly('refused wide', 'rings_refused'), plainly('hungUp wide', 'rings_hung_up'),
  ],
};
// whose lines lead to a period, or to a group or agent
const LEADS = ['day', 'week', 'month', 'each'];

/** @param {Sum} sum @returns {Sheet} */
function lined(sum) {
  const {kind, by} = sum, head = by === 'each' ? `${kind === 'groups' ? 'group' : 'agent'} name` : `${by} words`;
  const text = (/** @type {Recorded} */ {key}) => keyWords(sum, key);
  /** @type {Column['press']} */
  const press = ({key}) => LEADS.includes(by) && key !== 'all' && 'key';
  // a day is one, and of several groups together nobody knows how many waited at once
  const isShown = (/** @type {Column|string} */ one) =>
    !(by === 'day' && one === DAYS) && !(one === PEAK && by !== 'each' && sum.all.most_waiting === null);
  /** @type {Column[]} */
  const number = by === 'each' ? [{head: 'number filed', text: ({key}) => key === 'all' ? '' : key}] : [];
  const sheet = table('table', [{head, text, press}, ...FIGURES[kind].filter(isShown), ...number]);
  return {file: sheet.file, draw: lines => sheet.draw([...lines, {...sum.all, key: 'all'}].map(line => ({...line, counted: true})))};
}

// What a cell shows of a figure, and has in a file.
/** @param {Recorded|undefined} line */
const cell = (line, figure = '', inFile = false) => {
  const value = line?.[figure] ?? null;
  if (value === null) return inFile ? '' : NONE;
  if (SHARES.includes(figure.slice(0, 5)) || figure === LEVEL) return inFile ? Math.round(1e4 * value) / 100 : percent(value);
  return figure === 'average_wait' ? inFile ? Math.round(value) : clock(value) : value;
};

// The least of a figure that looks so.
const heat = (value = 0, most = 0) => most > 0 && value > 0 ? `${Math.ceil(HEATS * value / most)}` : false;

/** @param {Sum} sum @param {string} chosen @returns {Sheet} */
function crossed(sum, chosen) {
  const figure = chosen === 'level' ? LEVEL : chosen, lines = new Map(sum.lines.map(line => [line.key, line]));
  const hours = [...new Set(sum.lines.map(({key}) => key.slice(2)))].sort(), at = (day = 1, hour = '') => lines.get(`${day} ${hour}`);
  const most = Math.max(0, ...sum.lines.map(line => line[figure] ?? 0));
  const daysOf = (day = 1) => sum.lines.find(({key}) => key.startsWith(`${day} `))?.days ?? 0;
  const heads = [word('head.hour'), ...WEEK.map(day => `${weekdayWords(day)} (${daysOf(day)})`)];
  return {
    file: () => [heads, ...hours.map(hour => [hourWords(hour), ...WEEK.map(day => cell(at(day, hour), figure, true))])],
    draw() {
      const head = make('tr', ...heads.map((head, place) => make('th', {scope: 'col', class: place ? '' : 'words'}, head)));
      const cells = (hour = '') => WEEK.map(day => {
        const line = at(day, hour);
        return make('td', {'data-heat': heat(line?.[figure] ?? 0, most)}, cell(line, figure));
      });
      const first = (hour = '') => make('th', {scope: 'row', class: 'words'}, hourWords(hour));
      const rows = hours.map(hour => make('tr', {'data-key': hour}, first(hour), ...cells(hour)));
      put('table', make('thead', head), make('tbody', ...rows));
    },
  };
}

/** @param {Sum} sum @param {Choice} choice */
export const sheetOf = (sum, {figure}) => sum.by === 'weekday-hour' ? crossed(sum, figure) : lined(sum);

