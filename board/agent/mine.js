// An agent's services, and the places for calls. No document.
import {GRACE} from '../desk.js';

const MOST = 8;
export const STATES = ['ready', 'notReady', 'workingAfterCall', 'loggedOff'];

const plain = (name = '') => name.normalize('NFKC').toLocaleLowerCase().trim();

/** @param {{agents: string[][], groups: string[][], stations: string[]}} told @returns {Names} */
const namesOf = ({agents, groups, stations}) => ({agents: agents.map(([agent, name, device]) => ({agent, name, device})),
  groups: groups.map(([device, name]) => ({device, name})), stations});

export const {
  taken, sideOf, sides, isFree, states, isOutside, services, ringLeft, wrapLeft, isOverdue, placesOf, meant,
} = /** @type {Rules} */ ({
  // What the gate tells, with what it told before. Names come again only where they changed, and of a group that is left nothing is told.
  taken(before, {groups, names: given, ...told}, isWhole) {
    const lines = {...!isWhole && before?.lines, ...groups}, names = given ? namesOf(given) : before?.names;
    const mine = {doing: {doing: 'null', since: 0}, ...!isWhole && before, ...told, names};
    return {...mine, lines, groups: mine.queues.flatMap((/** @type {string} */ queue) => lines[queue] ?? [])};
  },

  sideOf: ({agent}, call) => call.connections.find(({device}) => device === agent.device),

  sides: mine => mine.calls.flatMap(call => sideOf(mine, call) ?? []),

  // Whether all calls at the agent's station are held, or found it busy.
  isFree: mine => !sides(mine).some(({state}) => ['initiated', 'alerting', 'connected'].includes(state)),

  // each that isn't there or pending already
  states(mine) {
    const {state, pending} = mine.agent, now = sides(mine).some(({group}) => group) ? pending : state;
    return new Set(!state ? [] : state === 'null' ? ['loggedOn'] : STATES.filter(one => one !== now));
  },

  // Whether the caller is from outside: no station calls.
  isOutside: ({names}, {caller = ''}) => !names?.stations.includes(caller),

  // A caller from outside who rings isn't hung up: that would throw the caller out.
  services(mine, call) {
    const here = sideOf(mine, call);
    if (!here) return new Set();
    // an external caller's side, which no event has, is connected
    const moves = call.connections.every(({state}) => ['connected', 'hold'].includes(state)) ? ['singleStepTransfer'] : [];
    const given = {
      alerting: ['answerCall', 'deflectCall'], initiated: ['phoneOffHook'], connected: ['holdCall', ...moves],
      hold: isFree(mine) ? ['retrieveCall'] : [], fail: [], queued: [],
    }[here.state];
    if (here.state !== 'alerting') return new Set([...given, 'clearConnection']);
    return new Set([...given, ...here.group ? ['rejectCall'] : !isOutside(mine, call) ? ['clearConnection'] : call.back ? ['back'] : []]);
  },

  // For how long a call rings yet; null where no tick ends it.
  ringLeft({groups}, {state, group, since}, now) {
    const ring = groups.find(({device}) => device === group)?.ring;
    return ring && state === 'alerting' ? since + ring - now : null;
  },

  // The same of after-call work; of several groups the least counts: it comes first.
  wrapLeft({agent: {state, since = 0}, groups}, now) {
    const wrap = state === 'workingAfterCall' && groups[0]?.wrap;
    return wrap ? since + wrap - now : null;
  },

  isOverdue: (mine, now) => [wrapLeft(mine, now), ...sides(mine).map(side => ringLeft(mine, side, now))]
    .some(left => left !== null && left < -GRACE),

  placesOf({agents, groups, stations}, office) {
    const people = agents.map(({agent, device, name}) => ({device, name: office.agents[agent] ?? name}));
    const at = new Map(people.map(({device, name}) => [device, name]));
    return {
      places: [...groups.map(({device, name}) => ({to: device, name: office.groups[device] ?? name})),
        ...stations.map(to => ({to, name: at.get(to) ?? office.stations[to] ?? '', isEmpty: !at.has(to)}))],
      away: people.flatMap(({device, name}) => device ? [] : name),
    };
  },

  // The places of a typed text: a number, a name, or all with it in their names; null for whoever isn't logged on.
  meant(typed, {places, away}, station) {
    const text = plain(typed), has = (name = '') => plain(name).includes(text);
    const found = places.filter(({to, name}) => name && to !== station && has(name));
    if (!text) return [];
    if (/^\d{1,15}$/.test(text)) return [places.find(({to}) => to === text) ?? {to: text, name: ''}];
    const whole = found.filter(({name}) => plain(name) === text);
    return whole.length ? whole : found.length ? found.slice(0, MOST) : away.some(has) ? null : [];
  },
});
