// An agent's page.
import {order} from '../desk.js';
import {byId, drawStatus, make, put, set, table, withNumber} from '../draw.js';
import {listen as listenTo} from '../hear.js';
import * as net from '../net.js';
import {logIn, logOut, openSession} from '../session.js';
import {isHeard, soundWhere, tone} from '../sound.js';
import {clock, DOING, named, office, plain, query, refusal, timeOfDay, translate, word} from '../words.js';
import {beat, drawCalls, joined, ring, ringsHere, say} from './calls.js';
import {isFree, isOverdue, meant, placesOf, sideOf, STATES, states, taken, wrapLeft} from './mine.js';
import {codeName, hasCodes, Reasons} from './reasons.js';
import {Requests} from './requests.js';

// milliseconds until the page is late, an answer of the gate isn't waited for, a text fades, a refusal fades, a click is no second one
const OLD = 8000, PATIENCE = 2000, FLEETING = 5000, REFUSED = 30000, SECOND = 400, MOST_GROUPS = 8, form = byId('log-on');

let id = query.get('agent') ?? '', acts = false, leaves = false, wonders = false, begun = false, isFilled = false;
let free = [''], offered = [''];
/** @type {Mine} */ let mine;
/** @type {Lost|null} */ let lost = null;
/** @type {Names} */ let names;
/** @type {Places} */ let places;
/** @type {Requests} */ let requests;
/** @type {Who} */ let who = {};
// milliseconds: the server's clock less this one's; when the desk was last known, and a click, of which the first is no second one
let ahead = 0, known = 0, clicked = -SECOND, fades = 0;

const age = () => Date.now() - known;
const isLive = () => mine?.live && !lost && age() < OLD;
// the desk's clock; it stops while the desk is unknown
const now = () => (Math.min(Date.now(), known + OLD) + ahead) / 1000;

const groupName = (device = '') =>
  named(office.names.groups[device] ?? names.groups.find(group => group.device === device)?.name ?? device);
const placeName = ({to = '', name = ''}) => withNumber({id: to, name});
const callerName = (device = '') => placeName(places.places.find(({to}) => to === device) ?? {to: device});

/** @type {Map<string, Made>} */ const notices = new Map();

// It stays until it is clicked away, or is over.
/** @type {Notice} */
const notice = (key, words, buttons = [], more) => {
  notices.set(key, make('p.notice', {'data-key': key}, make('span', words),
    make('span', ...buttons.map(([label, act]) => make('button', {onclick: () => { drop(key); act?.(); }}, label)), more)));
  put('notices', ...notices.values());
};

const drop = (key = '') => { if (notices.delete(key)) put('notices', ...notices.values()); };

const refuse = (words = '') => show({kind: 'refused', words});

/** @param {Outcome} outcome */
function show({kind, words, key, result}) {
  if (kind === 'dropped') return notice(`dropped ${words}`, say('dropped', {what: words}), [[say('read')]]);
  set('told', {'data-severity': kind === 'waits' ? 'long' : kind === 'refused' && 'bad'});
  put('told', `${{sent: '…', waits: '▲', done: '✓', refused: '■'}[kind]} ${words}`);
  clearTimeout(fades);
  if (kind !== 'waits') fades = setTimeout(put, kind === 'refused' ? REFUSED : FLEETING, 'told');
  if (result?.pending && mine) mine.agent.pending = result.pending;   // which no event has
  if (kind === 'refused' && key === 'loggedOff') leaves = false;
  if (kind === 'done' && key === 'makeCall' && result?.call) pickUp(result.call, words);
  giving.told(kind, key);
  draw();
}

// A call dialled here is picked up by itself; where a telephone rings in place of the page, that one is lifted.
function pickUp(call = 0, words = '') {
  if (ringsHere()) requests.send('phoneOffHook', {call, device: mine?.agent.device}, words, `phoneOffHook ${call}`);
}

// The second of two clicks asks for nothing.
/** @type {Send} */
const send = (service, members, words, key) => {
  const before = clicked;
  clicked = performance.now();
  if (clicked - before < SECOND || !isLive()) return;
  requests.send(service, members, words, key);
  draw();
};

/** @param {{device?:string}} [more] */
const ask = (requested = '', more) => send('setAgentState', {agent: id, requested, ...more},
  more ? say('logOnAt', {station: `${more.device}`}) : say(requested), requested);

const giving = new Reasons({id: () => id, ask, refuse, draw, who: callerName, group: groupName});

/** @type {Act} */
const act = (service, {call, key, back = ''}, who, field) => {
  const what = say(service), asked = `${service} ${call}`, members = {call, device: mine?.agent.device};
  // an agent who says no to an offer knows why the state changed
  if (service === 'rejectCall') localStorage[`acd-missed-${id}`] = key;
  if (service === 'back') return send('deflectCall', {...members, to: back}, say('moved', {what, who, to: callerName(back)}), asked);
  if (!/Transfer|deflect/.test(service)) return send(service, members, say('button', {what, who}), asked);
  choose(field, what, true, place => send(service, {...members, to: place.to}, say('moved', {what, who, to: placeName(place)}), asked));
};

// Why nobody takes a call there soon, as the gate knows it now; nothing where it doesn't answer.
async function whyNot({to = '', name = '', isEmpty = false}) {
  const reply = await net.ask(`/mine?agent=${id}&to=${to}`, undefined, PATIENCE).catch(() => null);
  /** @type {There|undefined} */ const there = reply?.status === 200 ? JSON.parse(reply.text).place : undefined;
  if (there?.loggedOn !== undefined) return there.loggedOn ? '' : say('empty.group', {group: placeName({to, name})});
  if (there?.agent ? false : isEmpty) return say('empty', {station: placeName({to, name})});
  if (!there?.doing || there.doing === 'ready') return '';
  return say('stands', {who: placeName({to, name}), state: `${DOING[there.doing].sign} ${DOING[there.doing].words}`});
}

// Asks where nobody takes the call soon.
/** @type {Sure} */
const sure = async (place, what, take) => {
  if (wonders) return;
  wonders = true;
  const why = await whyNot(place);
  wonders = false;
  if (!why) return take(place);
  notice('ask', why, [[say('allTheSame', {what}), () => take(place)], [say('no')]]);
};

// Takes the typed text; asks if it isn't one place.
/** @type {Choose} */
const choose = (field, what, asks, take) => {
  const typed = field.value.trim(), found = meant(typed, places, mine?.agent.device);
  drop('ask');
  if (!found?.length) {
    refuse(say(found ? typed ? 'nobody' : 'sayWhere' : 'away', {what, who: named(typed)}));
    return field.focus();
  }
  const goOn = (place = found[0]) => asks ? void sure(place, what, take) : take(place);
  if (found.length === 1) return goOn();
  /** @type {Button[]} */ const buttons = found.map(place => [placeName(place), () => goOn(place)]);
  notice('ask', say('which', {what}), [...buttons, [say('no')]]);
};

// Only somebody can say whether it is still wanted.
/** @type {Asking['ask']} */
const askAbout = ({body, words, at = 0}, answer) => {
  const {requested, call} = JSON.parse(body), {state, device} = mine?.agent ?? {};
  const isThere = !call || mine?.calls.some(one => one.call === call);
  if (requested && (requested === state || requested === (device ? 'loggedOn' : 'loggedOff'))) return answer(false);
  if (isThere) return notice(`kept ${at} ${words}`, say('kept', {what: words, time: timeOfDay(at / 1000)}),
    [[say('kept.send'), () => answer(true)], [say('kept.drop'), () => answer(false)]]);
  answer(false);
  refuse(`${words}: ${word('error.unknownCall')}`);
};

/** @param {Heard} heard */
function hear(heard) {
  if (heard.kind === 'beat') beat();
  if (heard.kind === 'lost') {
    lost = heard;
    if (heard.status === 401) return logIn();
  }
  if (heard.kind === 'picture' || heard.kind === 'change') take(heard);
  draw();
}

/** @param {News} news */
function take({told, kind, ahead: clock, received}) {
  lost = null;
  ahead = clock;
  // it is alive, and has never known the desk
  if (!mine && kind === 'change') return;
  mine = taken(mine, told, kind === 'picture');
  // of a desk that doesn't answer when it last did, or nothing where the gate doesn't know
  if (mine.live) known = received; else known ||= 1000 * told.answered && 1000 * told.answered - clock;
  if (told.names && mine.names) takeNames(mine.names);
  if (mine.live && acts && !begun) requests.takeUp();
  begun ||= mine.live;
}

// Offers the stations where nobody is, and the groups, or those of the login.
/** @param {Names} given */
function takeNames(given) {
  names = given;
  places = placesOf(names, office.names);
  free = (who.stations ?? names.stations).filter(station => !names.agents.some(({device}) => device === station)).sort(order);
  offered = names.groups.map(({device}) => device).filter(device => who.groups?.includes(device) ?? true);
  put('destinations', ...places.places.map(({to, name}) => make('option', {value: to}, name || say('station'))));
  put('stations', ...free.map(device => make('option', {value: device}, office.names.stations[device])));
  put('groups', ...offered.map(device => make('label', {'data-key': device},
    make('input', {type: 'checkbox', value: device}), make('span', `${groupName(device)} (${device})`))));
  if (isFilled) return;
  isFilled = true;
  form.elements.station.value = query.get('station') ?? lastLogOn()?.device ?? '';
  const chosen = query.get('groups')?.split(',') ?? lastLogOn()?.groups ?? [];
  for (const box of form.querySelectorAll('[type=checkbox]')) box.checked = chosen.includes(box.value);
}

/** @returns {LastLogOn|null} */
function lastLogOn() { try { return JSON.parse(localStorage[`acd-log-on-${id}`]); } catch { return null; } }

/** @param {Partial<LastLogOn>} wanted */
const logOn = ({device, groups = []}) => ask('loggedOn', {device, ...(groups.length === 1 ? {group: groups[0]} : {groups})});

/** @param {MyState} state */
function drawLogOn({device, groups}, may = false) {
  if (device && groups) localStorage[`acd-log-on-${id}`] = JSON.stringify({device, groups});
  const last = lastLogOn(), fits = last && free.includes(last.device) && last.groups.every(group => offered.includes(group));
  set('log-on-button', {disabled: !may});
  set('again', {disabled: !may, hidden: !fits, onclick: () => logOn(last ?? {})});
  if (fits) put('again', say('again.logOn', {station: last.device, groups: last.groups.map(groupName).join(', ')}));
}

function draw() {
  const why = lost?.status ? refusal(lost.status, lost.text) : word(lost ? `lost.${lost.text}` : 'error.noDesk');
  const status = lost || (mine && !mine.live) ? 'lost' : !known ? 'begins' : age() > OLD ? 'late' : 'live';
  drawStatus(status, known, why, (Date.now() + ahead) / 1000);
  if (!mine) return;
  const {agent, calls, groups} = mine, {state, device, pending, name} = agent, moment = now(), isLiving = isLive();
  const may = acts && isLiving ? states(mine) : new Set(), offer = isLiving ? offerOf(moment) : undefined;
  const {doing: does, since} = mine.doing, left = wrapLeft(mine, moment), {sign, words} = DOING[does];
  put('name', withNumber({id, name: office.names.agents[id] ?? name}));
  put('states', ...STATES.map(requested => make('button', {
    'data-requested': requested,
    'aria-disabled': may.has(requested) && !requests.out.has(requested) ? false : 'true',
    onclick: () => { if (may.has(requested) && !giving.begins(requested, mine)) ask(requested); },
  }, say(requested))));
  const hidden = {
    'at-station': !device, 'own-queues': !device, states: !device || !acts, 'log-on': state !== 'null' || !acts,
    dial: !acts || !isLiving || !isFree(mine), 'no-calls': calls.length > 0,
  };
  const wasHidden = byId('states').hidden;
  for (const [part, is] of Object.entries(hidden)) set(part, {hidden: is});
  drawLogOn(agent, may.has('loggedOn') && !requests.out.has('loggedOn'));
  giving.draw(mine, acts && isLiving, moment);
  set('state', {'data-doing': does});
  put('state', make('span', {'aria-hidden': 'true'}, sign), ' ',
    make('span', {id: 'state-words', role: 'status'}, state ? words : say('notPlanned')), ' ',
    make('time', device && clock(moment - since)));
  // who has just logged on or off by a key goes on from there
  const isLost = [document.body, null].includes(/** @type {any} */ (document.activeElement));
  if (wasHidden !== byId('states').hidden && isLost) byId(device ? 'states' : 'log-on').querySelector('button:not([hidden])')?.focus();
  const soon = left !== null && (left > 0 ? say('readyIn', {clock: clock(Math.ceil(left))}) : say('readySoon'));
  put('pending', joined(soon, pending && word(`pending.${pending}`), device && say('at', {station: device})));
  set(document.body, {'data-rings': Boolean(offer)});
  ring(offer);
  document.title = offer ? `◆ ${offer.title}` : `${isLiving ? sign : '▲'} ${name ?? id}`;
  drawCalls({mine, now: moment, acts: acts && isLiving, off: requests.out, who: callerName, group: groupName, act});
  queues.draw(groups.map(group => ({
    ...group, key: group.device,
    wait: group.calls.length ? moment - Math.min(...group.calls.map(({queued = moment}) => queued)) : null,
  })));
  drawDay(moment);
  showMissed(moment);
  showChanged();
  if (leaves && isLiving && !device) end();
}

/** @returns {Offer|undefined} */
function offerOf(moment = 0) {
  for (const call of mine.calls) {
    const side = sideOf(mine, call);
    if (side?.state !== 'alerting') continue;
    const caller = call.caller ? callerName(call.caller) : '…', group = side.group ? groupName(side.group) : '';
    const words = side.group && call.queued ? say('hasWaited', {clock: clock(moment - call.queued)}) : '';
    return {key: `${call.call} ${side.since}`, title: plain(`${caller} ${group}`).trim(), words};
  }
}

const queues = table('queues', [
  {head: 'group words', text: ({device}) => `${groupName(device)} (${device})`},
  {head: 'waiting', text: ({calls}) => calls.length},
  {head: 'longest', text: ({wait}) => clock(wait)},
  {head: 'ready', text: ({ready, loggedOn}) => `${ready} / ${loggedOn}`},
]);
/** @param {DayCall} one */
const codeOf = ({call, moment}) => mine.given?.calls.find(given => given.call === call && given.moment === moment)?.code;
const lastCalls = table('day', [
  {head: 'time words', text: ({moment}) => timeOfDay(moment, 'short')},
  {head: 'caller words', text: ({caller}) => caller ? callerName(caller) : '–'},
  {head: 'group words', text: ({group}) => group ? groupName(group) : say('direct')},
  {head: 'talk', text: ({talked}) => clock(talked)},
  ...hasCodes ? [{head: 'code words', text: (/** @type {DayCall} */ one) => codeName(codeOf(one))}] : [],
]);

function drawDay(moment = 0) {
  const {day} = mine;
  set('own-day', {hidden: !day});
  if (!day) return;
  const {answered, missed, calls} = day, talking = day.talking + (day.talks ? Math.max(0, moment - Math.max(day.talks, day.begins)) : 0);
  put('day-sums', joined(say('day.calls', {n: answered}), answered && say('day.average', {clock: clock(talking / answered)}),
    missed && say('day.missed', {n: missed})));
  set('day', {hidden: !calls.length});
  lastCalls.draw(calls.map(call => ({...call, key: `${call.call} ${call.moment}`})).reverse());
}

function showMissed(moment = 0) {
  const {agent, missed} = mine, place = `acd-missed-${id}`, isOff = agent.state === 'notReady', key = `${missed?.call} ${missed?.since}`;
  if (missed && acts && localStorage[place] !== key) {
    const read = () => { localStorage[place] = key; };
    /** @type {Button[]} */ const ready = isOff ? [[say('ready'), () => { ask('ready'); if (requests.out.has('ready')) read(); }]] : [];
    notice('missed', say('missed', {
      who: missed.caller ?? say('somebody'), group: groupName(missed.group), clock: clock(missed.moment - missed.since),
      time: timeOfDay(missed.moment), so: isOff ? say('missed.so') : '',
    }), [...ready, [say('read'), read]]);
  } else drop('missed');
  const mute = acts && agent.device && ringsHere() && !isHeard();
  const is = {'alarm.ticks': isLive() && isOverdue(mine, moment), sound: mute, 'agent.leaves': leaves};
  for (const [key, so] of Object.entries(is)) if (so) notice(key, word(key)); else drop(key);
}

// Who lost a state to somebody else is told by whom.
function showChanged() {
  const {changed} = mine, place = `acd-changed-${id}`, key = `${changed?.by} ${changed?.moment}`;
  if (!changed || !acts || localStorage[place] === key) return drop('changed');
  const {sign, words} = DOING[changed.requested === 'loggedOff' ? 'null' : changed.requested];
  const told = say('changed', {who: named(changed.by), state: `${sign} ${words}`, time: timeOfDay(changed.moment)});
  notice('changed', told, [[say('read'), () => { localStorage[place] = key; }]]);
}

function end() {
  leaves = false;
  logOut();
}

function listen() {
  const field = byId('tone'), called = byId('called');
  const offerNotices = () => set('notify', {hidden: !('Notification' in window) || Notification.permission !== 'default'});
  set(form, {onsubmit: event => {
    const groups = [...form.querySelectorAll('input:checked')].map(input => input.value);
    event.preventDefault();
    if (groups.length && groups.length <= MOST_GROUPS) logOn({device: form.elements.station.value, groups});
    else refuse(`${say('loggedOn')}: ${say('groups')}`);
  }});
  set('dial', {onsubmit: event => {
    const what = say('makeCall');
    event.preventDefault();
    choose(called, what, false, place => {
      send('makeCall', {device: mine?.agent.device, called: place.to}, say('button', {what, who: placeName(place)}), 'makeCall');
      called.value = '';
    });
  }});
  field.checked = localStorage['acd-tone'] !== 'off';
  soundWhere(() => field.checked);
  set(field, {onchange: () => {
    localStorage['acd-tone'] = field.checked ? 'on' : 'off';
    if (field.checked) tone();
  }});
  set('notify', {onclick: () => Notification.requestPermission().then(offerNotices)});
  offerNotices();
}

// An agent is logged off first; a second click ends the session at once.
function leave() {
  if (!acts || !mine?.agent.device || leaves) return end();
  ask('loggedOff');
  leaves = requests.out.has('loggedOff');
  draw();
}

// The login of no agent only looks at the page.
async function begin() {
  translate();
  listen();
  who = await openSession(leave, why => show({kind: 'waits', words: say('who', {why})}));
  id ||= who.agent ?? '';
  acts = who.agent === id || who.role === 'exchange';
  const login = named(who.login);
  put('told');
  if (!who.login) return refuse(say('noGate'));
  if (who.why) return refuse(`${login}: ${who.why}`);
  if (!id) return notice('nobody', say('noNumber', {login}), [], make('a', {href: '../'}, say('board')));
  if (!acts) notice('looks', say('looks', {login, number: id}));
  requests = new Requests(id, who.login, {isLive, logOn: () => mine?.agent.logOn ?? null, show, ask: askAbout});
  listenTo(hear, acts)(`agent=${id}`);
}
begin();
Object.assign(window, {agent: {mine: () => mine, requests: () => requests}});
