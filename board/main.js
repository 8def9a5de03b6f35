// The board: a desk, its day, and the view that is looked at.
import {lead} from './act.js';
import {drawChoice} from './choice.js';
import {save} from './csv.js';
import {State} from './desk.js';
import {byId, drawStatus, make, put, set, withNumber} from './draw.js';
import {Day} from './figures.js';
import {listen} from './hear.js';
import {callLines, groupLines, totals} from './lines.js';
import {logIn, logOut, openSession} from './session.js';
import {chosenOf, dateOf, dayBegin, FIELDS, FILTERS, limitsSaid, searchOf, settings, settingsOf, usualGroups, valueOf} from './settings.js';
import {soundWhere} from './sound.js';
import {faults, office, refusal, translate, word} from './words.js';
import * as agents from './views/agents.js';
import * as alarms from './views/alarms.js';
import * as calls from './views/calls.js';
import * as day from './views/day.js';
import * as events from './views/events.js';
import {drawTotals, queues, wall} from './views/groups.js';

/** @type {Record<string, View>} */
const VIEWS = {wall, queues, agents, calls, day, events};
const OLD = 8000, WEEK = 7;

let view = 'wall', state = new State(office.names), counting = new Day(), counted = false, followed = '', ahead = 0;
// what only one view shows, from when it was looked at first
/** @type {Set<string>} */ const shows = new Set();
/** @type {Drawn|undefined} */ let drawn;
// when the desk was last known to answer, in milliseconds
let answered = 0, unseen = 0, due = false;
/** @type {Course} */ let course = {kind: 'begins'};

const serverClock = () => (Date.now() + ahead) / 1000;

// The desk's clock; it stops if the connection is lost: no wait grows that may have ended.
const now = () => Math.max(state.moment,
  course.kind === 'lost' && answered ? Math.min(serverClock(), (answered + OLD + ahead) / 1000) : serverClock());

const ask = listen(hear);

// Other days as the gate is to count them, each to its end; none where this one begins at a moment.
const pastDays = () => settings.since.includes(':') && shows.has('day')
  ? [1, WEEK].map(back => `${dayBegin(now(), back)}-${dayBegin(now(), back - 1)}`) : [];

// Follows what the settings ask for: the day and its limits, the chosen groups, and what a view shows besides; says whether
// that is something else.
function follow() {
  const begin = dayBegin(now()), show = [...shows].sort().join(','), past = pastDays().join(',');
  const asked = new URLSearchParams({begin: `${begin}`, ...limitsSaid(), groups: settings.groups, show, past});
  for (const [name, value] of [...asked]) if (!value) asked.delete(name);
  const what = `${asked}`.replaceAll('%2C', ',');
  if (what === followed) return false;
  followed = what;
  ask(what);
  return true;
}

// Figures of other settings are shown no longer.
const count = () => { if (follow()) counted = false; };

/** @param {Heard} heard */
function hear(heard) {
  if (heard.kind === 'lost') {
    if (heard.status === 401) logIn();   // a session that has ended
    lose(heard.status ? refusal(heard.status, heard.text) : word(`lost.${heard.text}`), heard.status, heard.text === 'hidden');
  }
  // one of other settings may be on its way
  if ((heard.kind === 'picture' || heard.kind === 'change') && heard.asked === followed) take(heard);
}

function lose(why = '', status = 0, gaveWay = false) {
  course = {kind: 'lost', status, why, gaveWay};
  drawTop();
  schedule();
}

/** @param {News} heard */
function take({told, kind, ahead: clock, received}) {
  const isWhole = kind === 'picture';
  ahead = clock;
  state.take(told, isWhole);
  if (isWhole) counting = new Day(Number(new URLSearchParams(followed).get('begin')), chosenOf());
  counting.take(told, isWhole);
  if (counting.share === 1 && !counted) performance.mark('counted');
  counted = counting.share === 1;
  if (!told.live) return lose(word('error.noDesk'));
  if (course.kind !== 'live') performance.mark('live');
  answered = received;
  course = {kind: 'live'};
  drawTop();
  schedule();
}

// Another day, so many days before, once the gate has counted it.
const past = (back = 0) => settings.since.includes(':') ? counting.past.get(dayBegin(now(), back)) : undefined;

function schedule() {
  if (due) return;
  due = true;
  requestAnimationFrame(() => { due = false; draw(); });
}

const empty = (text = '') => put('empty', text), redraw = () => draw(true);

// Draws the view; `anew` where all may have changed.
function draw(anew = false) {
  if (!state.last && !state.groups.size) return course.kind === 'live' ? empty(word('empty.plan')) : undefined;
  const looked = {state, day: counting, now: now()}, lines = groupLines(looked), choice = field('group');
  if (lines.length && !lines.some(line => line.id === settings.group)) settings.group = '';   // none of the chosen ones any more
  drawn = {...looked, settings, counted, recent: state.events, lines, all: totals(looked, lines), past, empty, lead, filter, redraw};
  empty(lines.length ? '' : word(state.groups.size ? 'empty.groups' : 'empty.plan'));
  put(choice, make('option', {value: ''}, word('set.group.')), ...lines.map(line => make('option', {value: line.id}, withNumber(line))));
  if (choice.value !== settings.group) choice.value = settings.group;
  if (course.kind === 'live') unseen = alarms.draw(drawn, serverClock(), view === 'wall');
  drawTotals(drawn);
  drawChoice(state);
  VIEWS[view].draw(drawn, anew);
  if (counted && dayBegin(now()) !== counting.begin && course.kind === 'live') count();   // another day has begun
}

const title = () => settings.title || office.title || word('title.usual');

function drawTop() {
  const lost = course.kind === 'lost', late = course.kind === 'live' && Date.now() - answered > OLD;
  const said = drawStatus(late ? 'late' : course.kind, answered, 'why' in course ? course.why : '', serverClock(),
    counted ? '' : `${Math.floor(100 * counting.share)} %`);
  put('band', lost && `■ ${said}`);
  const gaveWay = 'gaveWay' in course && course.gaveWay;
  const alarmed = unseen ? `■ ${word('title.alarms', {n: unseen})} – ` : '';
  const first = gaveWay ? `▲ ${word('status.late')} – ` : lost ? `■ ${word('title.lost')} – ` : alarmed;
  document.title = `${first}${title()}: ${word(`view.${view}`)}`;
}

function show() {
  const hash = location.hash.slice(1);
  view = Object.hasOwn(VIEWS, hash) ? hash : 'wall';
  set(document.body, {'data-view': view});
  for (const part of document.querySelectorAll('[data-for]')) {
    set(part, {hidden: !part.getAttribute('data-for')?.split(' ').includes(view)});
  }
  const link = (name = '') => make('a', {href: `#${name}`, 'aria-current': name === view && 'page'}, word(`view.${name}`));
  put('views', ...Object.keys(VIEWS).map(name => make('li', link(name))));
  put('view', word(`view.${view}`));
  if (view === 'day' || view === 'events') shows.add(view);
  follow();
  drawTop();
  redraw();
}

/** @returns {any} */
const field = (name = '') => document.querySelector(`[name="${name}"]`);

function useSettings() {
  set(document.documentElement, {'data-theme': settings.theme});
  put('title', title());
  for (const [name, value] of Object.entries(settings)) {
    const one = field(name);
    if (one?.type === 'checkbox') one.checked = Boolean(value);
    // a field of times takes no day that begins at a moment
    else if (one && document.activeElement !== one)
      one.value = one.type !== 'time' ? value : `${value}`.includes(':') ? `${value}`.padStart(5, '0') : '';
  }
  window.history.replaceState(null, '', location.pathname + searchOf() + location.hash);
}

/** @type {Drawn['filter']} */
const filter = (wanted, hash) => {
  Object.assign(settings, wanted);
  useSettings();
  if (hash && hash !== view) location.hash = hash; else redraw();
};

/** @type {Labelled} */
const labelled = ([name, kind = 'text', ...choices], attributes = {}) => {
  const options = ['', ...choices].map(value => make('option', {value}, word(`set.${name}.${value}`)));
  return make('label', attributes, make('span', word(`set.${name}`)),
    kind ? make('input', {name, type: kind, min: 1, autocomplete: 'off'}) : make('select', {name}, ...options));
};

/** @param {any} event */
function change({target: one}) {
  const {name} = one, given = one.type === 'checkbox' ? (one.checked ? '1' : '') : one.value, bad = field('bad');
  one.setCustomValidity(valueOf(name, given) === undefined ? word('set.wrong') : '');
  bad.setCustomValidity(Number(bad.value) < Number(field('long').value) ? word('set.order') : '');
  put('set-told', one.validationMessage || bad.validationMessage);
  if (!byId('fields').checkValidity()) return;
  Object.assign(settings, settingsOf([[name, given]], settings));
  useSettings();
  if (name === 'lang') return location.reload();
  if (name === 'notify' && given) Notification.requestPermission();
  if (['since', 'limit', 'groups'].includes(name)) count();
  show();
}

/** @type {Record<string, Pressed>} */
const PRESSED = {
  agents: group => filter({group, find: ''}, 'agents'),
  calls: (_, __, {dataset}) => filter({group: '', find: dataset.call ?? ''}, 'calls'),
  agent: (_, line) => filter({group: '', states: '', find: line ? state.agentAt(line.at)?.id ?? line.at : ''}, 'agents'),
  call: (_, line) => line && lead.ofCall(state, line),
  state: key => lead.ofAgent(state, key),
  priority: key => lead.ofGroup(state, key),
};
document.addEventListener('click', ({target}) => {
  const button = /** @type {any} */ (target).closest('[data-press]'), key = button?.closest('[data-key]')?.dataset.key;
  if (key) PRESSED[button.dataset.press](key, drawn && callLines(drawn).find(line => `${line.number}` === key), button);
});

translate();
put('fields', ...FIELDS.map(setting => labelled(setting)), make('fieldset', {id: 'own-groups'}),
  make('p', make('output', {id: 'set-told'})), make('p', word('set.about')));
set('fields', {onchange: change, onsubmit: event => event.preventDefault()});
put('filters', ...FILTERS.map(([views, ...setting]) =>
  labelled(setting, {'data-for': views, oninput: () => filter({[setting[0]]: field(setting[0]).value})})),
  make('label', {'data-for': 'events'}, make('input', {type: 'checkbox', id: 'events-hold'}), make('span', word('filter.hold'))),
  make('div', {id: 'states', role: 'group', 'aria-label': word('filter.states'), 'data-for': 'agents'}));
put('fault', faults.length > 0 && word('fault.office', {what: faults.join(', ')}));
set('skip', {onclick: event => { event.preventDefault(); byId('main').focus(); }});
set('csv', {onclick: () => { if (drawn) save(`${view}-${dateOf(serverClock())}.csv`, VIEWS[view].file(drawn)); }});
soundWhere(() => Boolean(settings.tone));
addEventListener('hashchange', show);
addEventListener('resize', redraw);
setInterval(() => { drawTop(); schedule(); }, 1000);
useSettings();
show();
openSession(logOut).then(who => {
  if (who.role === 'agent' && who.reads === 'own') location.replace(`agent/${location.search}`);
  set('office', {hidden: who.role !== 'admin'});
  lead.begin(who);
  set('records', {hidden: !['office', 'lead'].includes(who.role ?? '') || who.reads === 'none'});
  if (usualGroups([...lead.groups].join(','))) {
    useSettings();
    count();
  }
  set(document.body, {'data-lead': lead.groups.size > 0});
  redraw();
});
// for the console, and for tests
Object.assign(window, {board: {state: () => state, day: () => counting, counted: () => counted, settings}});
