// The last events as sentences, the newest first.
import {byId, make, put} from '../draw.js';
import {chosenOf} from '../settings.js';
import {clock, isWord, named, office, plain, timeOfDay, word} from '../words.js';

const MOST = 200;
let last = 0, names = 0;
/** @type {Sentence[]} */ let shown = [];
// calls of these groups: their end names none
/** @type {Set<number>} */ const calls = new Set();

/** @param {Drawn} drawn */
export function draw({state, recent, settings: {group, groups}}, anew = false) {
  const chosen = chosenOf(group || groups), known = state.agents.size + state.groups.size, all = !group && !groups;
  if (byId('events-hold').checked) return;
  if (anew || names !== known || last > state.last) {   // names have come, or another desk
    names = known;
    last = 0;
    shown = [];
    calls.clear();
  }
  for (const report of all ? recent.slice(-2 * MOST) : recent) {
    const words = report.number > last && (concerns(state, report, chosen) || all) && sentence(state, report);
    if (words) shown.unshift({moment: report.moment, number: `${report.number}`, words});
  }
  last = recent[recent.length - 1]?.number ?? last;
  shown.splice(MOST);
  put('events-list', ...shown.map(({moment, number, words}) =>
    make('li', {'data-key': number}, make('time', timeOfDay(moment)), make('span', words))));
}

// Whether it is of a call that was in one of these groups, or of an agent of one.
/** @type {Concerns} */
const concerns = (state, {event, call, agent, group = '', device = '', to = ''}, chosen) => {
  const isIn = (/** @type {Agent|undefined} */ agent) => agent?.groups.some(chosen);
  if (agent) return chosen(group) || isIn(state.agents.get(agent));
  const found = calls.has(call)
    || [group, device, to].some(place => (state.groups.has(place) && chosen(place)) || isIn(state.agentAt(place)));
  calls[found && event !== 'callCleared' ? 'add' : 'delete'](call);
  return found;
};

// An event in words; nothing for those that only accompany another.
/** @param {State} state @param {any} report */
function sentence(state, {event, cause, agent, call, device, group, to, waited}) {
  const at = (device = '') => named(state.agentAt(device)?.name || state.nameOf(device, office.names.stations[device]));
  const kinds = {queued: cause, diverted: cause, established: waited !== undefined && 'waited', agentLoggedOn: ''};
  const kind = /** @type {any} */ (kinds)[event] ?? (group && 'group'), key = `event.${event}${kind ? `.${kind}` : ''}`;
  const who = agent ? named(state.agents.get(agent)?.name || word('agents.one', {id: agent})) : at(device);
  const values = {who, call: `${call}`, device, group: group ? at(group) : word('event.several'), to: at(to), clock: clock(waited ?? 0)};
  return isWord(key) && word(key, values);
}

export const file = () => [['time', 'event'].map(name => word(`head.${name}`)),
  ...shown.map(({moment, words}) => [timeOfDay(moment), plain(words)])];
