// Facts that a supervisor has to know at once, as a list, and its signs.
import {GRACE} from '../desk.js';
import {byId, make, put, set} from '../draw.js';
import {abandonment, level, sumOf} from '../figures.js';
import {isHeard, notify, tone} from '../sound.js';
import {clock, isWord, named, percent, plain, timeOfDay, word} from '../words.js';

// seconds that clocks may be apart
const APART = 60;

// An offer or after-call work that a tick should have ended.
/** @param {State} state */
function overdue(state, now = 0) {
  const late = (who = '', since = 0, given = 0) => given > 0 && now - since > given + GRACE
    && {who: named(who), clock: clock(now - since), given: clock(given), since: since + given};
  for (const {state: is, at, group, since, direct} of state.calls.values()) {
    const found = is === 'alerting' && group && !direct && late(state.agentAt(at)?.name || at, since, state.groups.get(group)?.ring);
    if (found) return found;
  }
  for (const {id, name, doing, groups, since} of state.agents.values()) {
    const found = doing === 'workingAfterCall' && late(name || id, since, state.groups.get(groups[0])?.wrap);
    if (found) return found;
  }
}

// Of each group the call that rings longest at an agent whom no group gave it: no tick takes it back.
/** @param {State} state */
function sent(state) {
  /** @type {Map<string|null, Call>} */ const found = new Map();
  for (const call of state.calls.values()) {
    const since = found.get(call.group)?.since ?? Infinity;
    if (call.direct && call.state === 'alerting' && call.since < since) found.set(call.group, call);
  }
  return found;
}

// The desk's time may be ahead of the server's clock: it stops until that has caught up.
/** @param {Drawn} drawn */
function alarms({state, lines, counted, now, settings, day}, serverClock = 0) {
  const ahead = state.moment - serverClock, over = ahead > APART ? undefined : overdue(state, now), rings = sent(state);
  /** @type {Alarm[]} */ const found = [];
  const add = (kind = '', group = '', values = () => ({}), since = 0, weight = 0) =>
    found.push({kind, group, key: group ? `${kind}.${group}` : kind, since, weight, values});
  if (ahead > APART) add('clock', '', () => ({clock: clock(ahead)}));
  if (over) add('ticks', '', () => over, over.since);
  for (const {id, name, limits: {goal, lost: most, bad}, waiting, loggedOn, severity, queued} of lines) {
    const group = named(name), rung = rings.get(id), {levelSince, lostSince, ...sums} = day.recent.get(id) ?? NONE;
    const reached = level(sums, settings.level === 'answered'), lost = abandonment(sums);
    if (waiting && !loggedOn) add('nobody', id, () => ({group, n: waiting}), 0, waiting);
    if (rung && now - rung.since > settings.ringing) {
      const who = () => named(state.agentAt(rung.at)?.name || rung.at);
      add('sent', id, () => ({group, who: who()}), rung.since + settings.ringing, now - rung.since);
    }
    if (severity === 'bad') add('wait', id, () => ({group}), queued + bad, now - queued);
    if (counted && lostSince !== null) {
      add('lost', id, () => ({group, share: percent(lost), goal: percent(most / 100)}), lostSince, lost ?? 0);
    }
    if (counted && levelSince !== null) {
      const missing = goal / 100 - (reached ?? 0);
      add('level', id, () => ({group, share: percent(reached), goal: percent(goal / 100)}), levelSince, missing);
    }
  }
  return found;
}

// The worst of each group, the worst first.
/** @param {Alarm[]} found */
function worst(found) {
  const sorted = [...found].sort((one, other) => KINDS.indexOf(one.kind) - KINDS.indexOf(other.kind) || other.weight - one.weight);
  return sorted.filter(({group}, place) => !group || sorted.findIndex(one => one.group === group) === place);
}

// of a group where nothing ended
/** @type {HalfHour} */ const NONE = {...sumOf([]), levelSince: null, lostSince: null};
const PLACE = 'acd-alarms', FORGOTTEN = 60000, NARROW = 1200, AGAIN = 30000, KEPT_EVERY = 5000;
const KINDS = ['clock', 'ticks', 'nobody', 'sent', 'wait', 'lost', 'level'];
/** @type {Record<string, Known>} */ let known = {};
try { known = JSON.parse(localStorage[PLACE]) ?? {}; } catch { /* nothing was kept, or nothing may be */ }
// when was looked last: a page that sleeps, or whose desk is gone, doesn't know that an alarm is over
let sounded = 0, kept = 0, whole = false, looked = Date.now();

const paper = matchMedia('print');

/** @param {Alarm} alarm */
const wordsOf = ({kind, values}) => word(`alarm.${kind}`, values());

// Says how many nobody has seen. What has no room on the screen is printed.
/** @param {Drawn} drawn */
export function draw(drawn, serverClock = 0, onWall = false) {
  const {settings, now, redraw} = drawn, all = alarms(drawn, serverClock), moment = Date.now();
  const fresh = new Set(all.filter(alarm => isNew(alarm, now, moment)));
  const found = worst(all), unknown = found.filter(alarm => fresh.has(alarm)), unseen = found.filter(({key}) => !known[key].seen);
  for (const key of Object.keys(known)) if (looked - known[key].last > FORGOTTEN) delete known[key];
  looked = moment;
  if (unknown.length || moment - kept > KEPT_EVERY) {
    kept = moment;
    try { localStorage[PLACE] = JSON.stringify(known); } catch { /* known until the page is left */ }
  }
  const few = onWall || innerWidth < NARROW ? 1 : 2;
  const see = (/** @type {Known[]} */ those) => () => { for (const one of those) one.seen = true; kept = 0; redraw(); };
  const sorted = [...found].sort((one, other) => Number(known[one.key].seen) - Number(known[other.key].seen));
  // what else is so of a group is seen with its worst, and said beside it
  const ofGroup = (/** @type {Alarm} */ alarm) => all.filter(one => one === alarm || alarm.group && one.group === alarm.group);
  const beside = (/** @type {Alarm} */ alarm) => ofGroup(alarm).filter(one => one !== alarm).map(wordsOf).join(' · ');
  paper.onchange = redraw;
  put('alarm', ...sorted.slice(0, whole || paper.matches ? Infinity : few).map(alarm => {
    const {key, kind, values} = alarm, {since, seen} = known[key], words = wordsOf(alarm), detail = `detail.${kind}`;
    return make('li', {'data-key': key, 'data-seen': seen}, make('b', `${seen ? '□' : '■'} ${words}`),
      make('span.detail', isWord(detail) ? word(detail, values()) : beside(alarm)),
      make('span.since', word('alarms.since', {time: timeOfDay(since, 'short'), clock: clock(now - since)})),
      make('button', {hidden: seen, 'aria-label': `${word('alarms.seen')}: ${plain(words)}`,
        onclick: see(ofGroup(alarm).map(one => known[one.key]))}, word('alarms.seen')));
  }));
  set('alarms-rest', {hidden: found.length <= few, onclick: () => { whole = !whole; redraw(); }});
  put('alarms-rest', whole ? word('alarms.fewer') : word('alarms.rest', {n: found.length - few}));
  set('alarms-seen', {hidden: unseen.length < 2, onclick: see(Object.values(known))});
  set('alarms-mute', {hidden: !settings.tone || isHeard()});
  set('alarms', {hidden: !found.length});
  // several at once, as where a page begins, are not read out one by one
  if (unknown.length) put('alarm-told', unknown.length > 1 ? word('title.alarms', {n: unknown.length}) : wordsOf(unknown[0]));
  if (settings.notify) for (const alarm of unknown) notify(byId('title').textContent, {body: plain(wordsOf(alarm)), tag: alarm.key});
  if (settings.tone && unseen.length && (unknown.length || moment - sounded > AGAIN)) {
    sounded = moment;
    tone();
  }
  return unseen.length;
}

/** @param {Alarm} alarm */
function isNew({key, since}, now = 0, moment = 0) {
  const old = known[key], unknown = !old || looked - old.last > FORGOTTEN;
  known[key] = unknown ? {since: since || now, last: moment, seen: false} : {...old, since: since || old.since, last: moment};
  return unknown;
}
