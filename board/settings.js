// A board's settings are in its address, as a bookmark; others are as the office says, or as here.
import {faults, office} from './words.js';

export const USUAL = {
  // a group may have its own: `long.100`
  limit: 20, goal: 80, lost: 5, long: 60, bad: 120,
  // seconds from which on it is long that an agent does this
  ringing: 15, busy: 900, hold: 120, own: 600, workingAfterCall: 180, notReady: 900,
  // the wall has so many rows at least, in smaller letters where they don't fit
  rows: 1,
  title: '', lang: '', since: '00:00', theme: '', groups: '', level: '', tone: '', notify: '',
  // filters
  group: '', find: '', states: '', sort: '', beside: '',
};

// the form: each setting, its kind, or '' and the other choices
export const FIELDS = [
  ['title'], ['groups', 'hidden'], ['limit', 'number'], ['goal', 'number'], ['level', '', 'answered'], ['lost', 'number'],
  ['long', 'number'], ['bad', 'number'], ['notReady', 'number'], ['since', 'time'], ['lang', '', 'en', 'de'],
  ['theme', '', 'dark', 'light'], ['tone', 'checkbox'], ['notify', 'checkbox'],
];
// the filters, by the views that have them
export const FILTERS = [
  ['agents calls day events', 'group', ''], ['agents calls', 'find', 'search'],
  ['agents', 'sort', '', 'name', 'state', 'time'], ['day', 'beside', '', '1', '7'],
];

const OF_GROUP = /^(limit|goal|lost|long|bad)\.\d{1,15}$/, HOUR = 3600;
/** @type {Record<string, RegExp>} */
const FORMS = {
  since: /^([01]?\d|2[0-3]):[0-5]\d$|^0$|^\d{10}$/, theme: /^(dark|light)?$/, groups: /^(all|\d{1,15}(,\d{1,15})*)?$/,
  level: /^(answered)?$/, tone: /^1?$/, notify: /^1?$/, group: /^\d{0,15}$/,
};

export function valueOf(name = '', text = '') {
  const plain = name.replace(OF_GROUP, '$1'), usual = /** @type {any} */ (USUAL)[plain], number = Number(text);
  if (typeof usual === 'string') return (FORMS[name] ?? /^/).test(text) ? text : undefined;
  return typeof usual === 'number' && number > 0 && number <= ({goal: 100, lost: 100}[plain] ?? 24 * HOUR) ? number : undefined;
}

/** @type {SettingsOf} */
export const settingsOf = (said, before) => {
  const settings = /** @type {any} */ ({...USUAL, ...before});
  for (const [name, text] of said) {
    const value = valueOf(name, text);
    if (value !== undefined) settings[name] = value;
  }
  settings.bad = Math.max(settings.long, settings.bad);
  return settings;
};

const usual = settingsOf(Object.entries(office.limits));
for (const [name, text] of Object.entries(office.limits)) if (valueOf(name, text) === undefined) faults.push(`limits.${name}`);
export const settings = settingsOf(new URLSearchParams(location.search), usual);

// what differs from the usual
export function searchOf() {
  const query = new URLSearchParams(Object.entries(settings)
    .flatMap(([name, value]) => value === usual[/** @type {'limit'} */ (name)] ? [] : [[name, `${value}`]]));
  return `?${query}`.replaceAll('%2C', ',').replaceAll('%3A', ':').replace(/^\?$/, '');
}

/** @returns {Limits} */
export function limitsOf(group = '') {
  const of = (/** @type {keyof Limits} */ name) => settings[`${name}.${group}`] ?? settings[name], long = of('long');
  return {limit: of('limit'), goal: of('goal'), lost: of('lost'), long, bad: Math.max(long, of('bad'))};
}

// the limits and goals of all groups, and of single ones, by which the gate counts
export const limitsSaid = () => {
  const limits = Object.entries(settings).flatMap(([name, value]) => /^(limit|goal|lost)\b/.test(name) ? [[name, `${value}`]] : []);
  return {...Object.fromEntries(limits), level: settings.level};
};

// The groups where the address names none: a lead's own.
export const usualGroups = (given = usual.groups) => {
  if (given !== usual.groups && !settings.groups) settings.groups = given;
  return usual.groups = given;
};

// Whether some groups were chosen.
export const areSome = () => settings.groups !== '' && settings.groups !== 'all';

// All groups count as chosen if none was.
export function chosenOf(groups = settings.groups) {
  const chosen = new Set(groups === 'all' ? [] : groups.split(',').filter(Boolean));
  return (group = '') => !chosen.size || chosen.has(group);
}

// Swedes write a moment as 2026-11-28 16:05:30.
const clock = new Intl.DateTimeFormat('sv', {timeZone: office.zone, dateStyle: 'short', timeStyle: 'medium'});

// What the office's clock shows, or else the browser's, as seconds since 1970.
export const shown = (moment = 0) => Date.parse(`${clock.format(moment * 1000).replace(' ', 'T')}Z`) / 1000;

// The day on the office's clock, 2026-11-28 say.
export const dateOf = (moment = 0) => clock.format(moment * 1000).slice(0, 10);

// When the day begins, so many days before: as late as the setting says; or a moment since 1970.
export function dayBegin(now = 0, back = 0) {
  const [hour, minute] = settings.since.split(':').map(Number), whole = Math.floor(now);
  if (minute === undefined) return hour;
  const here = shown(whole), midnight = here - here % 86400, wanted = midnight + hour * HOUR + minute * 60;
  const day = wanted > here ? wanted - 86400 : wanted;
  const clock = day - 86400 * back, guess = clock - (shown(clock) - clock);
  return clock - (shown(guess) - guess);   // where a clock is put forward or back between the two
}
