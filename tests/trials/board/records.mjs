// The page of records, by clicks and by keys, over files of days whose sums are reckoned in kept_days.mjs.
import {rm} from 'node:fs/promises';
import {join} from 'node:path';
import {sleep, until} from './browser.mjs';
import {run} from './desk.mjs';
import {after, cellsOfAgents, cellsOfGroups, laid, older, weekdayOf} from './kept_days.mjs';
import {contrast, unreached, untold} from './looks.mjs';
import {live, SCREEN} from './page.mjs';
import {KEPT, sheetOf} from './sheets.mjs';

const GROUPS = [['100', 'Billing'], ['101', 'Störung "A", Süd'], ['0110', 'Returns']];
const AGENTS = [['7', 'Ana Adler'], ['8', 'Ben'], ['9', 'Cem'], ['10', 'Jürgen Müller']], DAYS = 60;
const CELLS = `return [...document.querySelectorAll("#table tbody tr")].map(row =>
  [row.dataset.key,
    ...[...row.children].slice(1).filter(cell => cell.checkVisibility()).map(cell => cell.textContent.replace(/^[▲■] /, ""))])`;
const dayOf = (moment = Date.now()) => new Intl.DateTimeFormat('sv', {dateStyle: 'short', timeZone: 'UTC'}).format(moment);

class Page {
  constructor(see, browser, kept) { Object.assign(this, {see, browser, kept}); }

  /** What the page shows once the gate has answered. */
  async rows() {
    await until(() => this.browser.run('return document.querySelector("#told").textContent !== "Reading .." && window.records?.sum()'), 15);
    return this.browser.run(CELLS);
  }

  async choose(name, value) {
    await this.browser.run(`const field = document.querySelector('#choice [name="${name}"]');
      field.value = arguments[0];
      field.dispatchEvent(new Event('change', {bubbles: true}))`, value);
    await sleep(150);
    return this.rows();
  }

  expect(what, rows, wanted) {
    const wrong = wanted.filter(line => !rows.some(row => String(row) === String(line)));
    this.see(what, rows.length === wanted.length && !wrong.length,
      `${wrong.length} of ${wanted.length} lines, say ${wrong[0]} and not ${rows.find(row => row[0] === wrong[0]?.[0]) ?? rows[0]}`);
  }

  of(kind, since, last, also = () => true) {
    return this.kept[kind].filter(row =>
      row.day >= since && row.day <= last && !(kind === 'groups' && this.without.includes(row.day)) && also(row));
  }

  /** The lines that a period has to show, by a key of each row. */
  lines(kind, since, last, keys, keyOf, also) {
    const rows = this.of(kind, since, last, also), cells = kind === 'groups' ? cellsOfGroups : cellsOfAgents;
    const days = list => new Set(list.map(row => row.day)).size;
    const found = keys.map(key => {
      const own = rows.filter(row => keyOf(row) === key);
      return own.length ? [key, ...cells(own, days(own))] : [key, ...this.nothing(kind)];
    });
    return [...found, ['all', ...cells(rows, days(this.of(kind, since, last)))]];
  }

  /** Without the column of the most that waited, which is for a group alone; of days without their number too. */
  static several = lines => lines.map(line => line.slice(0, -1));
  static ofDays = lines => lines.map(([key, , ...cells]) => [key, ...cells]);

  nothing(kind) { return ['0', ...Array.from({length: 12}, () => '–')]; }
}

/** Monday to Sunday of the week before last, which is whole, and the month with it. */
export async function records(see, browser, front, folder) {
  const yesterday = after(dayOf(), -1), monday = after(yesterday, -6 - weekdayOf(yesterday)), sunday = after(monday, 6);
  const place = join(front.file, 'records');
  const page = new Page(see, browser, await laid(place, yesterday, DAYS, GROUPS, AGENTS));
  page.without = [after(monday, 2), after(monday, 3)];
  await rm(join(place, 'groups', `${page.without[0]}.csv`));
  await older(place, page.without[1]);
  await reached(see, browser, front);
  await browser.fresh(front.page('planner', `/board/records/?day=${monday}`));
  await groups(page, monday, sunday);
  await agents(page, monday, sunday);
  await files(page, front, monday);
  await led(see, browser, front, page, monday, sunday);
  await looks(see, browser, front, monday, folder);
}

/** Where the page is linked, and for whom. */
async function reached(see, browser, front) {
  for (const [login, is] of [['planner', true], ['lea', true], ['sup', false]]) {
    await browser.fresh(front.page(login, '/board/?since=0#queues'));
    await live(browser);
    await sleep(500);
    see(`${login} ${is ? 'has' : 'has no'} link to the records`,
      await browser.run('return document.querySelector("#records").checkVisibility()') === is);
  }
  await browser.fresh(front.page('planner', '/board/?since=0#queues'));
  await live(browser);
  await sleep(500);
  await browser.click('#records');
  see('the link leads there',
    Boolean(await until(
      () => browser.run('return location.pathname === "/board/records/" && document.querySelectorAll("#table tbody tr").length > 5'), 10)),
    await browser.run('return location.href'));
  await browser.fresh(front.page('sup', '/board/records/'));
  see('who may not read them is told', Boolean(await until(async () => await browser.text('#told') === '■ this login may not do that', 10)),
    await browser.text('#told'));
}

async function groups(page, monday, sunday) {
  const {see, browser} = page, days = Array.from({length: 7}, (_, day) => after(monday, day));
  const hours = Array.from({length: 11}, (_, hour) => `${hour + 8}`.padStart(2, '0'));
  page.expect('a week by days, with dashes where there are no records', await page.rows(),
    Page.several(Page.ofDays(page.lines('groups', monday, sunday, days, row => row.day))));
  const aside = await browser.run('return [...document.querySelectorAll("#aside li")].map(line => line.textContent)');
  const name = day =>
    new Intl.DateTimeFormat('en-GB', {weekday: 'short', day: 'numeric', month: 'short', timeZone: 'UTC'}).format(new Date(day));
  see('which days are missing, and which are of other formulas',
    String(aside)
      === String([`1 day has no records: ${name(page.without[0])}`,
        `1 day was counted by other formulas, and isn't in the sums: ${name(page.without[1])}`]), String(aside));
  page.expect('by hours', await page.choose('by', 'hour'),
    Page.several(page.lines('groups', monday, sunday, hours, row => `${row.hour}`.padStart(2, '0')))
      .map(line => line[0] === 'all' ? line : [line[0], '5', ...line.slice(2)]));
  page.expect('by days of the week', await page.choose('by', 'weekday'),
    Page.several(page.lines('groups', monday, sunday, [...'1234567'], row => `${weekdayOf(row.day)}`)));
  page.expect('by groups', await page.choose('by', 'each'),
    page.lines('groups', monday, sunday, GROUPS.map(([group]) => group), row => row.group));
  const crossed = await page.choose('by', 'weekday-hour');
  const at = (day, hour) => page.of('groups', monday, sunday, row => weekdayOf(row.day) === day && row.hour === Number(hour));
  const entered = (day, hour) => page.without.includes(after(monday, day - 1))
    ? '–' : `${at(day, hour).reduce((sum, row) => sum + row.entered, 0)}`;
  page.expect('by hours and days of the week', crossed,
    hours.map(hour => [hour, ...[1, 2, 3, 4, 5, 6, 7].map(day => entered(day, hour))]));
  await page.choose('by', 'day');
  page.expect("a group's", await page.choose('of', '101'),
    Page.ofDays(page.lines('groups', monday, sunday, days, row => row.day, row => row.group === '101')));
  await page.choose('of', '');
  // a line leads to its day, and the browser's way back to where one was
  await browser.click(`#table [data-key="${monday}"] button`);
  await sleep(200);
  page.expect('a line leads to its day', await page.rows(),
    page.lines('groups', monday, monday, GROUPS.map(([group]) => group), row => row.group));
  await browser.run('history.back()');
  await sleep(300);
  page.expect('and there is a way back', await page.rows(),
    Page.several(Page.ofDays(page.lines('groups', monday, sunday, days, row => row.day))));
  await browser.click('#choice [data-key=steps] button');
  await sleep(200);
  const before = after(monday, -7);
  page.expect('the week before', await page.rows(),
    Page.several(Page.ofDays(page.lines('groups', before, after(before, 6), days.map(day => after(day, -7)), row => row.day))));
  await browser.click('#choice [data-key=steps] button:last-child');
  await sleep(200);
  await page.rows();
}

async function agents(page, monday, sunday) {
  await page.choose('kind', 'agents');
  page.expect('agents of a week', await page.choose('by', 'each'),
    page.lines('agents', monday, sunday, AGENTS.map(([agent]) => agent), row => row.agent));
  await page.choose('of', '7');
  const since = after(monday, -9), days = Array.from({length: 12}, (_, day) => after(since, day));
  await page.choose('period', 'own');
  await page.choose('by', 'day');
  await page.choose('day', since);
  const wanted = page.lines('agents', since, after(since, 11), days, row => row.day, row => row.agent === '7');
  // on some days the agent wasn't there
  page.expect("an agent's, from a day up to another", await page.choose('until', after(since, 11)),
    Page.ofDays(wanted.map(line => line[1] === '0' ? [line[0], ...cellsOfAgents([], 1)] : line)));
}

/** Tables as files in both languages, and a day's own files. */
async function files(page, front, monday) {
  const {see, browser} = page, rows = page.of('groups', monday, after(monday, 6));
  const sum = name => rows.reduce((sum, row) => sum + row[name], 0);
  for (const [lang, between, heads, comma] of [['en', ',', ['Day', 'Entered', 'Lost, %', 'Speed of answer'], '.'],
    ['de', ';', ['Tag', 'Gekommen', 'Verlust, %', 'Wartezeit Ø'], ',']]) {
    await browser.fresh(front.page('planner', `/board/records/?day=${monday}&lang=${lang}`));
    await until(() => browser.run('return window.records?.sum()?.all.days'), 10);
    await sleep(300);
    await browser.run(KEPT);
    const {rows: [head, ...lines], begins, name} = await sheetOf(browser, between), last = lines[lines.length - 1];
    const of = (line, column) => line[head.indexOf(heads[column])];
    see(`the file in ${lang}`,
      String(begins) === '239,187,191' && name === `records-groups-${monday}-${after(monday, 6)}.csv` && lines.length === 8,
      `${name} ${lines.length}`);
    const lost = String(Math.round(1e4 * sum('abandoned') / (sum('answered') + sum('abandoned'))) / 100).replace('.', comma);
    see(`its sums in ${lang}`,
      of(last, 1) === String(sum('entered')) && of(last, 2) === lost && of(last, 3) === String(Math.round(sum('waited') / sum('answered'))),
      `${last}, and not ${lost}`);
    see(`a day without records in ${lang}`, of(lines[2], 1) === '–' && of(lines[2], 2) === '', String(lines[2]));
  }
  await browser.fresh(front.page('planner', `/board/records/?day=${monday}&period=day&by=each`));
  await until(() => browser.find('#files a'), 10);
  const links = await browser.run('return [...document.querySelectorAll("#files a")].map(link => link.getAttribute("href"))');
  see("a day's own files", String(links) === String(['records', 'agents', 'groups'].map(kind => `/records/${kind}/${monday}.csv`)),
    String(links));
  const loaded = await browser.run('return fetch(arguments[0]).then(reply => reply.text())', `/records/groups/${monday}.csv`);
  see('they are loaded', loaded.split('\n').length === page.of('groups', monday, monday).length + 2, loaded.slice(0, 80));
}

/** A lead sees the own groups, also where others are in the address. */
async function led(see, browser, front, page, monday, sunday) {
  await browser.fresh(front.page('lea', `/board/records/?day=${monday}&by=each`));
  page.expect("a lead's groups", await page.rows(),
    page.lines('groups', monday, sunday, ['101'], row => row.group, row => row.group === '101'));
  see('no other may be chosen',
    String(await browser.run('return [...document.querySelectorAll("[name=of] option")].map(option => option.value)')) === ',101');
  await browser.fresh(front.page('lea', `/board/records/?day=${monday}&by=each&of=100`));
  page.expect('nor by the address', await page.rows(), [['all', ...cellsOfGroups([], 5)]]);
}

/** Keys, names for those who don't see, contrast, 320 pixels, German, words. */
async function looks(see, browser, front, monday, folder) {
  const address = more => front.page('planner', `/board/records/?day=${monday}${more}`), open = async more => {
    await browser.fresh(address(more));
    await until(() => browser.run('return window.records?.sum()?.all.days && document.querySelectorAll("#table tbody tr").length'), 10);
    await sleep(300);
  };
  for (const theme of ['light', 'dark']) for (const by of ['day', 'weekday-hour']) {
    await open(`&theme=${theme}&by=${by}`);
    const {texts, least, low} = await contrast(browser);
    see(`contrast, ${theme}, by ${by}`, texts > 50 && !low.length, `${least} ${low.slice(0, 3)}`);
    await browser.picture(join(folder, `records-${by}-${theme}.png`));
  }
  await open('');
  // a field of a date has four places
  const missed = await unreached(browser, 9);
  see('each control is reached by Tab, and shows it', !missed.length, missed.slice(0, 3).join('; '));
  const found = await untold(browser, ['table', 'columnheader', 'rowheader', 'combobox', 'button', 'image', 'heading']);
  see('all has a name', !found.length, found.join('; '));
  await browser.run('document.querySelector("[name=period]").focus()');
  await browser.press('\uE015');
  see('a month by a key',
    Boolean(await until(
      () => browser.run('return window.records.choice().period === "month" && document.querySelectorAll("#table tbody tr").length > 28'),
      10)), await browser.run('return location.search'));
  see('the focus stays', await browser.run('return document.activeElement.name') === 'period');
  const kinds = ['', '&by=weekday-hour', '&kind=agents&by=each', '&lang=de', '&period=own'];
  for (const [width, height] of [[320, 568], [390, 844], [1366, 768]]) for (const more of kinds) {
    await browser.size(width, height);
    await open(more);
    see(`no page slides at ${width}${more}`, !(await contrast(browser)).sideways);
  }
  await browser.picture(join(folder, 'records-1366.png'));
  await browser.size(320, 568);
  await open('&lang=de&theme=dark');
  await browser.picture(join(folder, 'records-320.png'));
  await browser.size(...SCREEN);
  const said = await browser.run(`return [document.title,
    ...[...document.querySelectorAll("th, label span, summary, h1, h2, option, #aside li")].map(part => part.textContent)]`);
  see('in German', said[0].startsWith('Aufzeichnungen: ') && said.includes('Gekommen') && said.includes('eine Woche'),
    said.slice(0, 6).join('; '));
  const english = said.filter(text => /\b(the|Day|Week|Entered|Answered|days|records)\b/.test(text));
  see('and nothing English', !english.length, english.slice(0, 3).join('; '));
  see('nothing is wrong on the console', !(await browser.said()).some(line => line.startsWith('SEVERE') && !/40[13]/.test(line)), '');
}
