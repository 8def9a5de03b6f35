// Where a board's day begins, in three zones, and what stands beside it: yesterday, and the same weekday; and the hour behind midnight.
import {execFileSync} from 'node:child_process';
import {writeFile} from 'node:fs/promises';
import {sleep, until} from './browser.mjs';
import {live, PHONE, reckoned, SCREEN} from './page.mjs';
import {Story} from './story.mjs';

const GROUPS = [['100', 'Billing'], ['101', 'Orders'], ['102', 'Night']], DAY = 86400;

/** Eight days and a bit, up to now: a call each ten minutes, and at each full hour one that came before it and gives up behind it. */
export function days(now) {
  const story = new Story(now - 9 * DAY, GROUPS), calls = [];
  for (let moment = now - 9 * DAY + 300, turn = 9; moment < now - 400; moment += 600, turn = turn * 16807 % 2147483647) {
    calls.push([moment, turn % 2, turn % 53, turn % 5 ? 30 + turn % 200 : 0]);
  }
  for (let hour = Math.ceil(now / 3600) * 3600 - 9 * DAY + 3600; hour < now - 10; hour += 3600) calls.push([hour - 10, 2, 15, 0]);
  for (const call of calls.sort(([one], [other]) => one - other)) story.call(...call);
  return story.lines;
}

/** The moment of midnight in a zone, some days before, by Python's own zones. */
const midnight = (zone, now, back) => Number(execFileSync('/usr/bin/python3', ['-c', `
import datetime, zoneinfo, sys
zone = zoneinfo.ZoneInfo(sys.argv[1])
day = datetime.datetime.fromtimestamp(int(sys.argv[2]), zone).date() - datetime.timedelta(int(sys.argv[3]))
print(int(datetime.datetime.combine(day, datetime.time(), zone).timestamp()))`, zone, String(now), String(back)]).toString());

/** A zone in which it is so many hours behind midnight now; their signs are turned round. */
function zoneAt(hour) {
  const behind = (hour - new Date().getUTCHours() + 36) % 24 - 12;
  return behind ? `Etc/GMT${behind > 0 ? '-' : '+'}${Math.abs(behind)}` : 'Etc/GMT';
}

const figures = line =>
  [line.entered, line.answered, line.abandoned, line.within, line.late, line.handled, line.handling].map(value => value ?? 0);

export async function zones(see, browser, desk, front) {
  const file = `${front.file}/board.json`;
  for (const [zone, by] of [[zoneAt(0), 'board.json'], [zoneAt(23), 'the browser'], ['America/New_York', 'board.json']]) {
    await writeFile(file, JSON.stringify(by === 'board.json' ? {zone} : {}));
    await browser.command('Emulation.setTimezoneOverride', {timezoneId: by === 'board.json' ? 'Asia/Tokyo' : zone});
    await browser.fresh(front.page('sup', '/board/#day'));
    await live(browser);
    const now = Math.floor(Date.now() / 1000), begin = midnight(zone, now, 0), wanted = await reckoned(desk, '--begin', begin);
    const sum = await browser.run('const {begin, all} = window.board.day(); return {begin, ...all.sum}');
    see(`the day of ${zone} by ${by}`, sum.begin === begin && String(figures(sum)) === String(figures(wanted.groups.all ?? {})),
      `${sum.begin} ${figures(sum)} and not ${begin} ${figures(wanted.groups.all ?? {})}`);
    await until(async () => (await rows(browser)).length === 6, 20);
    const shown = await rows(browser);
    for (const [place, back] of [[3, 1], [5, 7]]) {
      const of = (await reckoned(desk, '--begin', midnight(zone, now, back), '--end', midnight(zone, now, back - 1))).groups.all ?? {};
      see(`${back} days before, in ${zone}`, String(shown[place]?.slice(1, 4)) === String(figures(of).slice(0, 3)) && of.entered > 50,
        `${shown[place]} and not ${figures(of)}`);
    }
    const clock = await browser.text('#clock');
    const told = new Intl.DateTimeFormat('en-GB',
      {timeZone: zone, timeZoneName: 'short', hour: '2-digit', minute: '2-digit'}).formatToParts();
    // one program's UTC is another's GMT
    see(`the clock of ${zone} names it`,
      clock.replace(/GMT$/, 'UTC').endsWith(told.find(part => part.type === 'timeZoneName').value.replace(/^GMT$/, 'UTC')), clock);
  }
  await browser.command('Emulation.setTimezoneOverride', {timezoneId: ''});
  await onPhone(see, browser, desk, front, file);
  await writeFile(file, '{}');
}

/** The hours below a chart of a whole day stand apart on a phone too, and the step that isn't over is pale. */
async function onPhone(see, browser, desk, front, file) {
  // so that something is drawn of the running step
  await desk.post({requester: 'on-phone', invoke: 1, service: 'arriveCall', caller: '0301', called: GROUPS[0][0]});
  await writeFile(file, JSON.stringify({zone: zoneAt(23)}));
  await browser.size(...PHONE);
  await browser.fresh(front.page('sup', '/board/#day'));
  await live(browser);
  await until(() => browser.run('return document.querySelectorAll("#charts svg").length === 4'), 20);
  const gaps = await browser.run(`return [...document.querySelectorAll('#charts svg')].flatMap(svg => {
    const boxes = [...svg.querySelectorAll('text')].filter(text => /^[0-9]+:[0-9]+$/.test(text.textContent))
      .map(text => text.getBoundingClientRect());
    return boxes.slice(1).map((box, place) => Math.round(box.left - boxes[place].right)); })`);
  see('the hours of a chart stand apart on a phone', gaps.length >= 8 && Math.min(...gaps) >= 4, String(gaps));
  const pale = await browser.run(
    `return [...document.querySelectorAll('#charts rect.running, #charts rect.first:not(.running)')].map(bar =>
      [bar.matches('.running'), Number(getComputedStyle(bar).opacity)])`);
  see('the running quarter of an hour is pale',
    new Set(pale.map(String)).size === 2 && pale.every(([running, opacity]) => running === opacity < 0.7), JSON.stringify(pale.slice(-3)));
  await browser.size(...SCREEN);
}

const rows = browser =>
  browser.run(`return [...document.querySelectorAll("#days-table tbody tr")].map(row =>
    [...row.children].map(cell => cell.textContent.replaceAll(",", "")))`);

/** A day that begins while the board is looked at: its clock is put forward over midnight. */
export async function overMidnight(see, browser, front) {
  const zone = zoneAt(23);
  await browser.command('Emulation.setTimezoneOverride', {timezoneId: zone});
  await browser.fresh(front.page('sup', '/board/#wall'));
  await live(browser);
  const before = await browser.run('return window.board.day().begin');
  // an hour later by the page's clock, and so by the server's, which it has as what that is ahead
  await browser.run('const real = Date.now; Date.now = () => real() + 3600000;');
  await sleep(300);
  const after = await until(() => browser.run(`const {begin} = window.board.day(); return begin !== ${before} && begin`), 20);
  see('a new day begins at midnight', after === before + DAY, `${before} ${after}`);
  await browser.command('Emulation.setTimezoneOverride', {timezoneId: ''});
}
