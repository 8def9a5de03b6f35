// Agents as tiles, of which only those on the screen are written; and what each did today, as a table.
import {order} from '../desk.js';
import {AS_IT_IS, byId, make, put, set, table, withNumber} from '../draw.js';
import {chosenAgents, noCounts, search} from '../lines.js';
import {clock, DOING, named, office, word} from '../words.js';

// a table of so many is written anew less often
const MANY = 100, DAYS_EVERY = 5000, SORTED_EVERY = 5000, KINDS = /** @type {Doing[]} */ (Object.keys(DOING));
let sorted = 0, told = 0, how = '', redraw = () => {}, places = [''];

// tiles on the screen, or near to it
const seen = new Set(), watcher = new IntersectionObserver(entries => {
  for (const {target, isIntersecting} of entries) seen[isIntersecting ? 'add' : 'delete'](target.getAttribute('data-key'));
  redraw();
}, {rootMargin: '200px'});

// Why the agent isn't ready, by what the agent said.
/** @param {Doing} doing */
const because = (doing, reason = '') => doing === 'notReady' && reason ? `: ${named(office.reasons[reason] ?? reason)}` : '';

/** @param {{doing:Doing, reason?: string}} line */
const does = ({doing, reason}) => `${DOING[doing].sign} ${DOING[doing].words}${because(doing, reason)}`;

const days = table('agents-table', [
  {head: 'agent name', text: withNumber, file: line => line.name},
  {head: 'number', text: line => line.id},
  {head: 'state words', text: does},
  'calls day',
  'talk seconds', 'afterCall seconds', 'ready seconds', 'notReady seconds', 'missed day',
]);

/** @param {Drawn} drawn */
export function draw(drawn) {
  const {state, day, settings: {states, group, find, sort}, filter} = drawn;
  const wanted = new Set(states.split(',').filter(Boolean)), counts = noCounts();
  const among = search(people(drawn).filter(({id}) => !group || day.groupsOf(state.agent(id)).includes(group)), find,
    ({id, name}) => [id, name, state.agent(id).station ?? '']);
  for (const one of among) counts[one.doing]++;
  const shown = arranged(among.filter(one => wanted.size ? wanted.has(one.doing) : one.doing !== 'null'), sort);
  redraw = drawn.redraw;
  put('agents-list', ...shown.map(one => tile(drawn, one)));
  for (const tile of byId('agents-list').children) watcher.observe(tile);
  put('states', ...KINDS.map(doing => make('button', {
    'data-doing': doing, 'aria-pressed': `${wanted.has(doing)}`,
    onclick: () => filter({states: `${KINDS.filter(one => wanted.has(one) !== (one === doing))}`}),
  }, `${does({doing})} ${counts[doing]}`)));
  drawn.empty(shown.length ? '' : word(find || wanted.size ? 'agents.none' : 'agents.nobody'));
  set('agents-details', {ontoggle: redraw});
  if (byId('agents-details').open && (shown.length < MANY || Date.now() - told > DAYS_EVERY)) {
    told = Date.now();
    drawDays(drawn, shown);
  }
}

/** @param {Drawn} drawn @returns {Shown[]} */
const people = drawn => chosenAgents(drawn).map(({id, name, doing, since, group}) =>
  ({id, name, doing, since, group, reason: drawn.state.reasons.get(id)}));

/** @param {Drawn} drawn */
const drawDays = (drawn, shown = people(drawn)) =>
  days.draw(shown.map(one => ({...one, ...drawn.day.agent(one.id, drawn.now), counted: drawn.counted, key: one.id})));

// Others are sorted at once, by what they do each few seconds at most.
/** @param {Shown[]} shown */
function arranged(shown, sort = '') {
  const all = new Map(shown.map(one => [one.id, one])), is = `${sort} ${[...all.keys()]}`;
  if (how !== is || Date.now() - sorted > SORTED_EVERY) {
    how = is;
    sorted = Date.now();
    places = [...shown].sort((one, other) => {
      const time = one.since - other.since, state = KINDS.indexOf(one.doing) - KINDS.indexOf(other.doing) || time;
      return {name: one.name.localeCompare(other.name), state, time}[sort] || order(one.id, other.id);
    }).map(({id}) => id);
  }
  return places.flatMap(id => all.get(id) ?? []);
}

/** @param {Drawn} drawn @param {Shown} shown */
function tile({state, now, settings, lead}, {id, doing, group, since, reason}) {
  if (!seen.has(id)) return make('li', {'data-key': id}, AS_IT_IS);
  const groupName = (id = '') => named(state.nameOf(id)), agent = state.agent(id), {name, station, groups, pending} = agent;
  const who = named(name || word('agents.one', {id})), {sign, words} = DOING[doing];
  const isOff = doing === 'null', isLong = !isOff && doing !== 'ready' && now - since > settings[doing], calls = agent.calls.map(String);
  const place = station ? [word('agents.at', {id, station}), ...groups.map(id => groupName(id))] : [id];
  return make('li', {'data-key': id, 'data-doing': doing, 'data-long': isLong, 'data-several': groups.length > 1},
    make('strong', who), make('span.sign', {'aria-hidden': 'true'}, sign),
    make('span.words', words + because(doing, reason) + (group && groups.length > 1 ? `: ${groupName(group)}` : '')),
    make('time', !isOff && `${isLong ? '! ' : ''}${clock(now - since)}`),
    make('small', place.join(', ')),
    make('span.calls', pending !== null && make('span', word(`pending.${pending}`)),
      ...calls.map(call => make('button.link', {'data-press': 'calls', 'data-call': call}, word('agents.call', {call})))),
    make('button', {'data-press': 'state', hidden: !lead.leads(agent), 'aria-label': word('act.state', {who})}, '⋯'));
}

/** @param {Drawn} drawn */
export function file(drawn) {
  drawDays(drawn);
  return days.file();
}
