// What is said in words, in English. Other languages have the same keys in words/, de.js say; what they lack is in English.
// What one page alone says is in a words.js of its own.
//   word('alarms.rest', {n: 3})   "and 3 more alarms": of a word with forms `n` chooses one. {n} is a value: Intl writes a number
//   <b data-word="view.wall"></b> translate() writes it; data-label an aria-label
import {customerOf} from './customer.js';
import {ask} from './net.js';

const ENGLISH = keyed(`
skip: To the figures
sound: Click here once, so that it may sound: no browser lets a page sound before.
views: Views
settings: Settings
log.off: Log off here
totals: Own groups together
fault.office: board.json of the office can't be used: {what}
[title]
usual: Help line
lost: no desk
alarms.one: {n} alarm
alarms.other: {n} alarms
[view]
wall: Wall
queues: Queues
agents: Agents
calls: Calls
day: Day
events: Events
[doing]
ready: ready
ringing: ringing
busy: on a call
hold: call on hold
own: own call
workingAfterCall: after-call work
notReady: not ready
null: logged off
[pending]
ready: ready after this call
notReady: a break after this call
workingAfterCall: after-call work after this call
loggedOff: logs off after this call
[waits]
none: empty
calm: waiting
long: long
bad: too long
[connection]
queued: waiting
alerting: ringing
hold: on hold
fail: busy signal
connected: talking
initiated: dials
none: is made
[status]
begins: Reading the desk
anew: Another desk is here: reading it
live: Live
counting: Live, reading the day
late: Late
old: What you see is old: {why}
none: No desk: {why}
age: {clock} old
[lost]
server: the server cannot be reached
silent: no answer
status: the answer was {status}
streams: more than eight pages of this name are open
hidden: other pages of this browser come first
[error]
# what the desk, its gate or its proxy means by the name of an error
unknownDevice: no such number is planned
unknownCall: the call has ended
unknownConnection: the call is no longer here
wrongConnectionState: the call is in another state by now
wrongAgentState: the agent is in another state by now
notStation: that number is no station
destinationBusy: that station is busy
sameDevice: the call is there already
stationTaken: another agent is logged on there
stationBusy: the station has another call
tooManyCalls: the desk has as many calls as it can
deskFull: the desk is full
noMemory: the desk wants memory
storeFault: the desk has stopped (storeFault)
forbidden: this login may not do that
unauthorized: nobody is logged in
tooManyRequests: it was asked too often
badGateway: the gate does not run
gatewayTimeout: the gate does not answer
noDesk: the desk does not answer
unknownAgent: no such agent is planned
deviceExists: that number is planned already
agentExists: that agent is planned already
planFull: the plan is full
wrongPassword: the password of now is wrong
passwordForm: a password has 10 signs at least and 72 at most, and is neither the login nor the one before
loginExists: there is such a login already
rootsLogin: that login belongs to the machine's files, or begins as one of theirs
unknownLogin: there is no such login any more
tooManyLogins: there are as many logins as there may be
notWritten: it could not be written: the disk of the gate is full, say
notKept: the server has no room to keep it
[csv]
save: CSV
[agents]
one: Agent {id}
day: What each did today
none: No agent is as you look for.
nobody: Nobody is logged on.
at: {id} at {station}
call: call {call}
[empty]
plan: No group is planned yet.
groups: None of the groups in this address is planned.
[set]
title: Title
groups: Own groups
groups.all: all groups
limit: Service level: answered within, s
goal: Its goal, %
level: Of which calls
level.: answered + abandoned later
level.answered: answered alone
lost: Goal of abandonment, %
long: A wait is long from, s
bad: Too long from, s
notReady: Not ready is long from, s
since: The day begins at
lang: Language
lang.: as the office says
theme: Colours
lang.en: English
lang.de: Deutsch
theme.: as the system
theme.dark: dark
theme.light: light
tone: A tone for alarms
notify: A notification for alarms
wrong: This can't be used
order: Too long has to be more than long
about: They stand in the address: keep it as a bookmark. A group's own limit is ?long.100=30 there.
group: Group
group.: all
find: Find
sort: Order
sort.: by number
sort.name: by name
sort.state: by state
sort.time: longest first
beside: Beside it
beside.: nothing
beside.1: yesterday
beside.7: a week before
[filter]
hold: Hold still
states: States
[head]
group: Group
state: State
waiting: Waiting
longest: Longest
ringing: Ringing
ready: Ready
loggedOn: Logged on
next: Next
afterCall: After-call work
notReady: Not ready
inTime: In time
byStay: In time by stay
entered: Entered
answered: Answered
abandoned: Abandoned
lost: Lost, %
moved: Moved
average: Speed of answer
handling: Handling time
priority: Priority
closed: Closed
act: Act
onCalls: On calls
call: Call
for: For
at: At
caller: Caller
whole: In all
time: Time
number: Number
event: Event
longestWait: Longest wait
peak: Most waiting
day: Day
calls: Calls
agent: Agent
talk: Talk
missed: Missed
# of records
days: Days
week: Week
month: Month
weekday: Weekday
hour: Hour
occupancy: Occupancy
ownCalls: Own calls
rings: Rings
notAnswered: Not answered
refused: Refused
hungUp: Hung up
code: About
[tile]
ringing: and {n} ringing
ready: Agents ready
loggedOn: of {n} logged on
level: In time: {limit}
of: of {what}
limit: within {n} s
limits: within the group's limit
goal: goal {goal}
closed: {n} closed
occupancy: Occupancy
[rule]
closed: closed
to: overflow to {to}
[wall]
rest.one: and {n} more group with {waiting} waiting
rest.other: and {n} more groups with {waiting} waiting
[calls]
rest: and {n} more
none: No calls.
[day]
table: As a table
today: Today
until: {day} until {time}
[counted]
title: How it is counted
wait: A caller waits from the first entrance into a queue, through all moves, until an agent answers or the caller goes.
  Who is passed on after a talk waits anew. It counts in the group that the caller entered last.
level: In time: answered within the limit, of all answered and those who gave up later than the limit.
lost: Lost: gave up, of all answered and all who gave up. Speed of answer: the average wait of the answered.
stay: By stay: the same of the last stay in a queue alone, where the wait ended there.
[records]
title: Records
[chart]
calls: Calls in a quarter of an hour
level: In time, {limit}, in percent of {what}
wait: Wait of the answered calls, in minutes
peak: Most calls waiting at once
[alarms]
title: Alarms
seen: Seen
since: since {time}, {clock}
rest.one: and {n} more alarm
rest.other: and {n} more alarms
fewer: fewer
all: All seen
[alarm]
wait: {group}: a caller waits too long
level: {group}: only {share} in time in the last half hour, the goal is {goal}
lost: {group}: {share} gave up in the last half hour, the goal is {goal}
nobody.one: {group}: {n} caller waits, and nobody is logged on
nobody.other: {group}: {n} callers wait, and nobody is logged on
sent: {group}: {who} doesn't answer a caller who was sent there
clock: The desk's time is {clock} ahead of the clock
ticks: Calls ring on without an end, or after-call work: call the administrator (nothing ticks)
[detail]
clock: until the clock has come there no ring and no after-call work ends by itself
ticks: {who} for {clock}, the group gives {given}
[event]
agentLoggedOn: {who} logs on at {device} for {group}
several: several groups
agentLoggedOff: {who} logs off
agentReady: {who} is ready
agentNotReady: {who} is not ready
agentWorkingAfterCall: {who} is in after-call work
queued.newCall: Call {call} waits in {who}
queued.deflected: Call {call} waits in {who}, sent there
queued.transferred: Call {call} waits in {who}, transferred
queued.noAnswer: Call {call} waits in {who} again: it was not taken
delivered: Call {call} rings at {who}
delivered.group: Call {call} rings at {who} for {group}
diverted.deflected: Call {call} is sent on from {who} to {to}
established: {who} answers call {call}
established.waited: {who} answers call {call} after {clock}
held: {who} puts call {call} on hold
retrieved: {who} takes call {call} back
transferred: {who} transfers call {call} to {to}
failed: Call {call} finds {who} busy
callCleared: Call {call} ends
callCleared.group: Call {call} ends: the caller gave up in {group}
serviceInitiated: {who} dials
originated: {who} calls {to}
[act]
yes: Do it
no: Leave it
state: Change the state of {who}?
move: Move
move.sure: Send {who}, which waits, somewhere else?
rings.sure: Send {who}, who rings at {at}, somewhere else?
empty: nobody is logged on
place.sure: {place}: {why}. Send the caller there all the same?
to: To
end: End
end.sure: End {who}? The caller is cut off.
priority.sure: Change the priority of {group}?
unknown: No answer came: look whether it was done.
# the agent's page
[agent]
state: Your state
change: Change your state
at: at {station}
ready: Ready
notReady: Not ready
workingAfterCall: After-call work
loggedOff: Log off
loggedOn: Log on
why: Why not ready?
reason.none: Without a reason
about: What was the call about?
notTheDesks: Reasons and what calls were about are the office's notes: the desk does not know them.
notKept: {what}: no answer came, so it is not kept. Choose it again.
readyIn: ready in {clock}
readySoon: ready in a moment
notPlanned: No such agent is planned
station: Station
groups: Groups, one to eight
logOnAt: Log on at {station}
again.logOn: Log on as last time: at {station}, {groups}
leaves: You are logged off here as soon as the desk has logged you off.
calls: Calls at your station
noCall: No call.
dial: Number or name
makeCall: Call
to: To: number or name
answerCall: Answer
rejectCall: Not now
back: Back
phoneOffHook: Pick up
holdCall: Hold
retrieveCall: Retrieve
singleStepTransfer: Transfer
deflectCall: Pass on
clearConnection: Hang up
customer: Customer file
button: {what}: {who}
moved: {what}: {who}, to {to}
byYou: your own
direct: to you
hasWaited: has waited {clock}
ringsFor: rings for another {clock}
lift: your telephone rings first
rings: {what} rings
sayWhere: {what}: say to whom
nobody: {what}: nobody and nothing here is called {who}
away: {what}: {who} is not logged on
which: Which one?
empty: Nobody is logged on at {station}.
empty.group: Nobody is logged on for {group}.
stands: {who}: {state}.
allTheSame: {what} all the same
no: No
missed: You did not answer {who}, {group} (it rang {clock}, until {time}){so}.
missed.so: , so you are not ready
changed: {who} changed your state at {time}: {state}.
somebody: a caller
read: Read
again: {what}: no answer yet, it is sent again
kept: {what}: you asked for this at {time}, and no answer came.
kept.send: Ask again
kept.drop: Forget it
dropped: {what}: an older page asked for this. It is not sent again: see whether it was done.
tone: Calls ring here
notify: Tell me of calls behind other windows
queues: Your groups
day: Your day
day.calls.one: {n} call answered
day.calls.other: {n} calls answered
day.average: talk {clock} on average
day.missed.one: {n} offer not taken
day.missed.other: {n} offers not taken
noGate: This page asks the gate, and there is none here
who: Who is logged in? {why}
noNumber: The login {login} has no agent of its own.
board: The board
looks: The login {login} looks at agent {number} here, and asks for nothing.
# the office's page
[office]
title: Office
[password]
own: Password
rule: Another password, of {n} signs at least
first: Your password was given to you. Choose one of your own, of {n} signs at least.
roots: The password of this login is in the machine's files: ask the machine's administrator.
old: Password of now
new: New password
again: The new one again
differs: The two new ones differ.
change: Change it
later: Later
leave: Leave it
done: Your password is another one now. Other pages of this login are logged out.
[login]
title: Log in
name: Name
password: Password
wrong: Name or password is wrong.
nothing: This name may do nothing here: ask the office.
again: Many log in now: this page tries again by itself, for two minutes.
wait: Too many wrong passwords, or too many who log in: wait a minute.
fault: The server cannot be asked: try again.
`);

// A line that begins with spaces continues the one above.
/** @returns {Record<string, string>} */
function keyed(text = '') {
  let area = '';
  return Object.fromEntries(text.replace(/\n +/g, ' ').split('\n').flatMap(line => {
    const [, into, name, said] = /^\[(.*)\]$|^(.*?): (.*)$/.exec(line) ?? [];
    if (into) area = `${into}.`;
    return name ? [[area + name, said]] : [];
  }));
}

// What one page alone says.
export const addWords = (text = '') => void Object.assign(ENGLISH, keyed(text));

/** @returns {string[][]} */
const flat = (said = {}, area = '') => Object.entries(said)
  .flatMap(([name, one]) => typeof one === 'string' ? [[area + name, one]] : flat(one, `${area}${name}.`));

// The office's settings of its pages, of /etc/acd/board.json; `faults` names the file, or each member that can't be used.
const PATIENCE = 3000, LONGEST = 80;

/** @returns {Record<string, string>} */
const texts = (said = {}) => Object.fromEntries(Object.entries(said ?? {})
  .flatMap(([name, value]) => ['string', 'number'].includes(typeof value) ? [[name, String(value).slice(0, LONGEST)]] : []));

// Which members of an object are none of these, or aren't of the form that they have to be.
function strange(/** @type {any} */ said, area = '', known = (/** @type {string} */ name, /** @type {any} */ value) => false) {
  if (said === undefined) return [];
  if (said?.constructor !== Object) return [area.slice(0, -1)];
  return Object.entries(said).flatMap(([name, value]) => known(name, value) ? [] : area + name);
}

const isText = (/** @type {any} */ value) => ['string', 'number'].includes(typeof value);

// A key of a list may not look like a caller's number.
const KEY = /^(?!.*\d{6})[a-z][a-z0-9-]{0,14}$/, MOST_KEYS = 40;
const isOfList = (/** @type {string} */ name, /** @type {any} */ value) => KEY.test(name) && isText(value) && `${value}`.trim() !== '';
/** @returns {Record<string, string>} */
const listOf = (said = {}) =>
  Object.fromEntries(Object.entries(texts(said)).filter(([name, value]) => isOfList(name, value)).slice(0, MOST_KEYS));

function officeOf(text = '') {
  let said;
  /** @type {string[]} */ const faults = [];
  try { said = JSON.parse(text); } catch { /* a fault, as any other that is no object */ }
  if (said?.constructor !== Object) {
    said = {};
    faults.push('board.json');
  }
  const given = texts(said), {names, limits, reasons, codes, requireReason} = said;
  const drop = (name = '') => { delete given[name]; faults.push(name); };
  const kinds = ['groups', 'agents', 'stations'], ofText = (_ = '', /** @type {any} */ value) => isText(value);
  const isOf = (name = '', /** @type {any} */ value) => ['title', 'language', 'zone'].includes(name) ? isText(value) :
    name === 'requireReason' ? typeof value === 'boolean' :
      ['names', 'limits', 'customer', 'reasons', 'codes'].includes(name);
  faults.push(
    ...strange(said, '', isOf),
    ...strange(limits, 'limits.', ofText), ...strange(names, 'names.', name => kinds.includes(name)),
    ...kinds.flatMap(name => strange(names?.[name], `names.${name}.`, ofText)),
    ...strange(reasons, 'reasons.', isOfList), ...strange(codes, 'codes.', isOfList));
  if (!/^[a-z]{2,3}$/.test(given.language ?? 'en')) drop('language');
  try { new Intl.DateTimeFormat('en', {timeZone: given.zone}); } catch { drop('zone'); }
  const {customer, faults: ofCustomer} = customerOf(said.customer);
  faults.push(...ofCustomer);
  const allNames = {groups: texts(names?.groups), agents: texts(names?.agents), stations: texts(names?.stations)};
  const lists = {reasons: listOf(reasons), codes: listOf(codes), requireReason: requireReason === true};
  const {title, language, zone} = given;
  return {office: {...lists, title, language, zone, limits: texts(limits), names: allNames, customer}, faults};
}

const reply = await ask('/board/board.json', {cache: 'no-cache'}, PATIENCE).catch(() => null), isTold = reply?.status === 200;
export const {office, faults} = officeOf(isTold ? reply.text : '{}');
// a page without a session, that of log-in, speaks as the last one did, or as the browser
if (isTold) localStorage['acd-language'] = office.language ?? 'en';
else office.language = localStorage['acd-language'] ?? navigator.language.slice(0, 2);

export const query = new URLSearchParams(location.search);
const asked = query.get('lang') ?? '';
export let language = /^[a-z]{2,3}$/.test(asked) ? asked : office.language ?? 'en';
let chosen = ENGLISH;
if (language !== 'en') try { chosen = Object.fromEntries(flat((await import(`./words/${language}.js`)).default)); } catch {
  if (isTold && language === office.language) faults.push('language');
  language = 'en';
}
document.documentElement.lang = language;
// Britain's English has 24 hours
const locale = language === 'en' ? 'en-GB' : language;
const dates = (how = {}) => new Intl.DateTimeFormat(locale, {timeZone: office.zone, ...how});
const plural = new Intl.PluralRules(locale), figures = new Intl.NumberFormat(locale);
const shares = new Intl.NumberFormat(locale, {style: 'percent'});
const exact = new Intl.NumberFormat(locale, {style: 'percent', minimumFractionDigits: 1, maximumFractionDigits: 1});
const times = {short: dates({timeStyle: 'short'}), medium: dates({timeStyle: 'medium'}), long: dates({timeStyle: 'long'})};
const days = dates({weekday: 'short', day: 'numeric', month: 'short'});

/** @param {string|number} [n] */
const saidIn = (table = chosen, key = '', n) => table[key] ?? table[`${key}.${plural.select(Number(n))}`] ?? table[`${key}.other`];

/** @param {Values} [values] */
export function word(key = '', values = {}) {
  const text = saidIn(chosen, key, values.n) ?? saidIn(ENGLISH, key, values.n) ?? key;
  return text.replace(/\{(\w+)\}/g, (all, name) => {
    const value = values[name] ?? all;
    return typeof value === 'number' ? number(value) : value;
  });
}

export const isWord = (key = '') => saidIn(ENGLISH, key) !== undefined;

export const [OPENS, CLOSES] = ['\u2068', '\u2069'];
// A name between Unicode's isolates, so that it moves nothing beside it; put() makes it <bdi>.
export const named = (text = '') => OPENS + text.replace(/[\u202a-\u202e\u2066-\u2069]/g, '') + CLOSES;
export const plain = (text = '') => text.replace(/[\u2068\u2069]/g, '');

export function translate() {
  /** @type {NodeListOf<HTMLElement>} */ const all = document.querySelectorAll('[data-word], [data-label]');
  for (const element of all) {
    const {word: text, label} = element.dataset;
    if (text) element.textContent = word(text);
    if (label) element.ariaLabel = word(label);
  }
}

export const number = (value = 0) => figures.format(value);

// In whole percent; one that is its goal only in whole percent has a digit more.
/** @param {number|null} share */
export const percent = (share, goal = NaN) => share === null ? '–'
  : (Math.round(100 * share) === goal && Math.abs(100 * share - goal) > 1e-9 ? exact : shares).format(share);

// seconds as 0:07, 12:34 or 1:02:03
/** @param {number|null} seconds */
export const clock = seconds => {
  if (seconds === null) return '–';
  const whole = Math.max(0, Math.floor(seconds)), hour = Math.floor(whole / 3600), minute = `${Math.floor(whole / 60) % 60}`;
  const second = `${whole % 60}`.padStart(2, '0');
  return hour ? `${hour}:${minute.padStart(2, '0')}:${second}` : `${minute}:${second}`;
};

// `long` names the zone
export const timeOfDay = (moment = 0, style = /** @type {keyof times} */ ('medium')) => times[style].format(moment * 1000);

// of days that are no moments
export const dateWords = (how = {}) => new Intl.DateTimeFormat(locale, {timeZone: 'UTC', ...how});

export const dayOf = (moment = 0) => days.format(moment * 1000);

/** @type {Signed} */
const signed = (area, signs) =>
  Object.fromEntries(Object.entries(signs).map(([name, sign]) => [name, {sign, words: word(`${area}.${name}`)}]));
export const DOING = signed('doing',
  {ready: '●', ringing: '◆', busy: '▶', hold: '‖', own: '▷', workingAfterCall: '✎', notReady: '■', null: '○'});
export const CONNECTION = signed('connection',
  {queued: '●', alerting: '◆', hold: '‖', fail: '×', connected: '▶', initiated: '○', none: '○'});

/** @type {Record<string, string>} */
export const SIGN = {none: '○', calm: '●', long: '▲', bad: '■'};
export const waits = ({severity = 'none'}) => `${SIGN[severity]} ${word(`waits.${severity}`)}`;

export function refusal(status = 0, text = '') {
  try {
    const {name} = JSON.parse(text).error;
    return isWord(`error.${name}`) ? word(`error.${name}`) : `${name}`;
  } catch { return word('lost.status', {status: `${status}`}); }
}
