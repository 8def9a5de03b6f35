// What is asked for: it is in the page's address, as a bookmark.
import {dateOf} from '../settings.js';
import {dateWords, named, office, word} from '../words.js';
import {after, count, isDay, mondayOf} from './days.js';

export const MOST_DAYS = 366;
const PERIODS = ['day', 'week', 'month', 'own'];
const BY = {
  groups: ['each', 'day', 'week', 'month', 'weekday', 'hour', 'weekday-hour'],
  agents: ['each', 'day', 'week', 'month', 'weekday'],
};
export const FIGURES = ['entered', 'answered', 'abandoned', 'lost', 'level', 'average_wait'];

/** @type {Record<string, (text: string) => boolean>} */
const FORMS = {
  kind: text => text in BY, period: text => PERIODS.includes(text), day: isDay, until: isDay,
  by: text => BY.groups.includes(text), of: text => /^\d{0,15}$/.test(text), figure: text => FIGURES.includes(text),
};

// Yesterday's week, where nothing is asked for.
/** @returns {Choice} */
const usual = () => {
  const yesterday = after(dateOf(Date.now() / 1000), -1);
  return {kind: 'groups', period: 'week', day: yesterday, until: yesterday, by: 'day', of: '', figure: 'entered'};
};

/** @returns {Choice} */
export function choiceOf(search = '') {
  const said = [...new URLSearchParams(search)].filter(([name, text]) => FORMS[name]?.(text));
  return settled({...usual(), ...Object.fromEntries(said)});
}

// One that can be asked for: agents have no hours, and a period of one's own is a year at most.
/** @param {Choice} choice @returns {Choice} */
export function settled(choice) {
  const by = BY[choice.kind].includes(choice.by) ? choice.by : 'each', [since, until] = [choice.day, choice.until].sort();
  const isLong = choice.period === 'own' && count(since, until) > MOST_DAYS;
  return {...choice, by, ...isLong && {day: after(until, 1 - MOST_DAYS), until}};
}

/** @param {Choice} choice @param {string} [others] what else is in the address */
export function searchOf(choice, others = '') {
  const first = usual(), said = new URLSearchParams(others);
  for (const [name, text] of Object.entries(choice)) {
    if (name !== 'until' || choice.period === 'own') said.set(name, text); else said.delete(name);
    if (!text || text === /** @type {any} */ (first)[name] && !['day', 'until'].includes(name)) said.delete(name);
  }
  return `?${said}`;
}

const long = dateWords({day: 'numeric', month: 'short', year: 'numeric'});
const days = dateWords({weekday: 'short', day: 'numeric', month: 'short'});
const weekdays = dateWords({weekday: 'long'}), months = dateWords({month: 'long', year: 'numeric'});
const at = (day = '') => new Date(`${day}T00:00Z`);

export const dayWords = (day = '') => days.format(at(day));
// 2026-11-23 was a Monday
export const weekdayWords = (number = 1) => weekdays.format(at(after('2026-11-23', number - 1)));
export const hourWords = (hour = '') => `${hour}:00`;
export function periodWords(since = '', until = '') {
  return since === until ? `${weekdays.format(at(since))}, ${long.format(at(since))}` : long.formatRange(at(since), at(until));
}

// The name of a group or agent: of the office, else of the files.
/** @param {Pick<Sum, 'kind' | 'names'>} sum */
export const nameIn = ({kind, names}, key = '') => office.names[kind][key] ?? names[key] ?? key;

// What a line is of.
/** @param {Sum} sum @param {string} key */
export function keyWords(sum, key) {
  if (key === 'all') return word('records.all');
  const [first, hour] = key.split(' ');
  /** @type {Record<string, () => string>} */
  const words = {
    each: () => named(nameIn(sum, key)),
    day: () => dayWords(key),
    week: () => word('records.week', {n: `${Number(key.slice(6))}`, day: dayWords(mondayOf(key))}),
    month: () => months.format(at(`${key}-01`)),
    weekday: () => weekdayWords(Number(key)),
    hour: () => hourWords(key),
    'weekday-hour': () => `${weekdayWords(Number(first))} ${hourWords(hour)}`,
  };
  return words[sum.by]();
}

// The fields of the form, with what may be chosen.
/** @type {Choices} */
export const fields = ({kind, of, by}, sum) => {
  const names = sum?.kind === kind ? sum.names : {}, numbers = new Set([...Object.keys(names), of].filter(Boolean));
  const found = [...numbers].map(key => /** @type {[string, string]} */ ([key, nameIn({kind, names}, key)]));
  found.sort(([, one], [, other]) => one.localeCompare(other));
  /** @param {string[]} names @returns {[string, string][]} */
  const words = (names, area = '') => names.map(name => [name, word(`records.${area}.${name}`)]);
  return {
    kind: words(['groups', 'agents'], 'kind'),
    of: [['', word(`records.all.${kind}`)], ...found],
    period: words(PERIODS, 'period'),
    by: words(BY[kind], 'by'),
    ...by === 'weekday-hour' && {figure: words(FIGURES, 'figure')},
  };
};
