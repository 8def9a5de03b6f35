// Records: files of days, which the gate has added up, as tables and charts.
import './words.js';
import {save} from '../csv.js';
import {byId, make, put, set} from '../draw.js';
import * as net from '../net.js';
import {logIn, logOut, openSession} from '../session.js';
import {dateOf, settings} from '../settings.js';
import {faults, office, plain, refusal, translate, word} from '../words.js';
import {charts} from './charts.js';
import {choiceOf, dayWords, fields, periodWords, searchOf, settled} from './choice.js';
import {mondayOf, moved, periodOf} from './days.js';
import {sheetOf} from './sheets.js';

// milliseconds: a year takes the gate seconds, once
const PATIENCE = 55000;
// days that are named of those without records
const MOST_NAMED = 10;
const KINDS = ['records', 'agents', 'groups'], APART = 'by-stay/';

let choice = choiceOf(location.search), asked = 0;
/** @type {Sum|undefined} */ let sum;
/** @type {Sheet|undefined} */ let sheet;
/** @type {Record<string, string[]>} */ let files = {};

// The days that aren't over have no files yet.
const isOver = (day = '') => day < dateOf(Date.now() / 1000);

const labelled = (name = '', part = make('')) => make('label', {'data-key': name}, make('span', word(`records.${name}`)), part);

/** @param {[string, string][]} options */
const select = (name = '', options) =>
  labelled(name, make('select', {name}, ...options.map(([value, text]) => make('option', {value}, plain(text)))));

const dateField = (name = '', label = name) =>
  labelled(label, make('input', {name, type: 'date', required: true, min: '1970-01-01', max: '9999-12-31'}));

const stepButton = (sign = '', name = '', steps = 1) =>
  make('button', {type: 'button', 'aria-label': word(`records.${name}`), onclick: () => choose(moved(choice, steps))}, sign);

function drawForm() {
  const isOwn = choice.period === 'own';
  put('choice', ...Object.entries(fields(choice, sum)).map(([name, options]) => select(name, options)),
    dateField('day', isOwn ? 'since' : 'within'), isOwn && dateField('until'),
    make('span', {'data-key': 'steps'}, stepButton('‹', 'before', -1), ' ', stepButton('›', 'after', 1)));
  for (const [name, value] of Object.entries(choice)) {
    /** @type {any} */ const field = byId('choice').elements.namedItem(name);
    if (field && field.value !== value) field.value = value;
  }
}

// The days that aren't in the sums, a few by name.
function aside(key = '', days = ['']) {
  const named = days.slice(0, MOST_NAMED).map(dayWords).join('; ') + (days.length > MOST_NAMED ? ' …' : '');
  return days.length > 0 && make('li', word(`records.${key}`, {n: days.length, days: named}));
}

// The files of a day, which have each call, each agent and each quarter of an hour.
const links = (day = '') => KINDS.flatMap(kind => ['', APART].flatMap(folder => {
  const text = word(`records.file.${kind}`) + (folder && ` (${word('records.old')})`);
  const href = `/records/${folder}${kind}/${day}.csv`;
  return files[folder + kind]?.includes(day) ? make('li', make('a', {href, download: true}, text)) : [];
}));

function draw() {
  const [since, until] = periodOf(choice), period = periodWords(since, until);
  drawForm();
  put('period', period);
  document.title = `${word('records.title')}: ${period}`;
  set('csv', {disabled: !sum?.all.days});
  put('files', ...since === until ? links(since) : []);
  put('aside', ...sum ? [aside('missing', sum.missing.filter(isOver)), aside('others', sum.others), aside('unread', sum.unread)] : []);
  put('table');
  put('charts', ...sum ? charts(sum) : []);
  set('sheet', {hidden: !sum?.all.days});
  sheet = sum && sheetOf(sum, choice);
  if (sum) sheet?.draw(sum.lines);
}

// Asks the gate; the answer to what was asked before is dropped.
async function ask() {
  const [since, until] = periodOf(choice), {kind, by, of} = choice, mine = ++asked;
  const query = new URLSearchParams({kind, since, until, by, of});
  put('told', word('records.reading'));
  const reply = await net.ask(`/records/sums?${query}`, {}, PATIENCE).catch(({message}) => ({status: 0, text: message}));
  if (mine !== asked) return;
  if (reply.status === 401) return logIn();
  sum = reply.status === 200 ? JSON.parse(reply.text) : undefined;
  const why = reply.status ? refusal(reply.status, reply.text) : word(`lost.${reply.text}`);
  put('told', sum ? !sum.all.days && word('records.none') : `■ ${why}`);
  draw();
}

// Another choice; `leads` is one to come back from.
/** @param {Partial<Choice>} wanted */
function choose(wanted, leads = false) {
  choice = settled({...choice, ...wanted});
  window.history[leads ? 'pushState' : 'replaceState'](null, '', searchOf(choice, location.search));
  if ('figure' in wanted) return draw();
  drawForm();
  void ask();
}

// A line leads to its day by hours, to its week or month by days, or to its group or agent by days.
/** @type {Record<string, (key: string) => Partial<Choice>>} */
const LEADS = {
  day: key => ({period: 'day', day: key, by: choice.kind === 'groups' && choice.of ? 'hour' : 'each'}),
  week: key => ({period: 'week', day: mondayOf(key), by: 'day'}),
  month: key => ({period: 'month', day: `${key}-01`, by: 'day'}),
  each: key => ({of: key, by: choice.period === 'day' && choice.kind === 'groups' ? 'hour' : 'day'}),
};

/** @param {any} event */
function change({target: {name, value, validity}}) {
  if (!name || !validity.valid) return;
  // another kind has other numbers, and a period of one's own begins with what was shown
  const [since, until] = periodOf(choice), isOwn = name === 'period' && value === 'own';
  choose({[name]: value, ...name === 'kind' && {of: ''}, ...isOwn && {day: since, until}});
}

/** @param {any} event */
function press({target}) {
  const key = target.closest('button')?.closest('tr')?.dataset.key, lead = sum && LEADS[sum.by];
  if (key && lead) choose(lead(key), true);
}

function keep() {
  const [since, until] = periodOf(choice);
  if (sheet) save(`records-${choice.kind}-${since}${since === until ? '' : `-${until}`}.csv`, sheet.file());
}

async function begin() {
  translate();
  set(document.documentElement, {'data-theme': settings.theme});
  put('title', `${office.title ?? word('title.usual')}: ${word('records.title')}`);
  put('fault', faults.length > 0 && word('fault.office', {what: faults.join(', ')}));
  set('choice', {onsubmit: event => event.preventDefault(), onchange: change});
  set('table', {onclick: press});
  set('csv', {onclick: keep});
  addEventListener('popstate', () => {
    choice = choiceOf(location.search);
    void ask();
  });
  addEventListener('resize', () => put('charts', ...sum ? charts(sum) : []));
  draw();
  await Promise.all([openSession(logOut), ask()]);
  const reply = await net.ask('/records/').catch(() => undefined);
  if (reply?.status === 200) files = JSON.parse(reply.text);
  draw();
}
void begin();
// for tests
Object.assign(window, {records: {sum: () => sum, choice: () => choice}});
