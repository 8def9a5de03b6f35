// Days of the office's calendar as 2026-11-28, and periods of them. No document, no network.

const DAY = 86400000;
const moment = (day = '') => Date.parse(`${day}T00:00Z`), said = (moment = 0) => new Date(moment).toISOString().slice(0, 10);

export const isDay = (text = '') => /^\d{4}-\d{2}-\d{2}$/.test(text) && !Number.isNaN(moment(text)) && said(moment(text)) === text;

export const after = (day = '', days = 1) => said(moment(day) + days * DAY);

// How many days there are from one up to another, and with it.
export const count = (since = '', until = '') => Math.round((moment(until) - moment(since)) / DAY) + 1;

// The first day and the last one of a period in which a day is; weeks begin on Monday.
/** @param {Choice} choice */
export function periodOf({period, day, until}) {
  if (period === 'own') return until < day ? [until, day] : [day, until];
  if (period === 'day') return [day, day];
  if (period === 'week') {
    const monday = after(day, -((new Date(moment(day)).getUTCDay() + 6) % 7));
    return [monday, after(monday, 6)];
  }
  const [year, month] = day.split('-').map(Number);
  return [`${day.slice(0, 8)}01`, said(Date.UTC(year, month, 0))];
}

// The same period before (-1) or after (1).
/** @param {Choice} choice @param {number} steps */
export function moved(choice, steps) {
  const [since, until] = periodOf(choice);
  if (choice.period === 'own') {
    const days = steps * count(since, until);
    return {day: after(since, days), until: after(until, days)};
  }
  return {day: steps < 0 ? after(since, -1) : after(until, 1)};
}

// The Monday of a week as 2026-W48.
export function mondayOf(week = '') {
  const [year, number] = week.split('-W').map(Number), january = Date.UTC(year, 0, 4);
  return said(january - ((new Date(january).getUTCDay() + 6) % 7) * DAY + (number - 1) * 7 * DAY);
}
