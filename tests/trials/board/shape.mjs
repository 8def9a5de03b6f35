// The board's shape: long names and such of any script, from 320 to 4,000 pixels, zoomed, on paper, in forced colours, on a wall, and under
// a second click.
import {writeFile} from 'node:fs/promises';
import {join} from 'node:path';
import {sleep} from './browser.mjs';
import {live, VIEWS} from './page.mjs';

const LONG = 'Versicherungsangelegenheitenbearbeitung1';
/** Names of forty letters without a blank, from right to left, and such that look like HTML. */
export const NAMES = {
  groups: {100: LONG, 101: 'خدمة العملاء والشكاوى', 102: 'תמיכה טכנית (דחוף)', 103: '<img src=x onerror=alert(1)>',
    104: 'Störung & Ausfälle 🔥', 105: 'Zażółć gęślą jaźń'},
  agents: {1: `${LONG.slice(0, 39)}2`, 2: 'محمد عبد الرحمن', 3: 'Łukasz Żółć', 4: '"><script>alert(2)</script>', 5: 'יוסף כהן'},
  stations: {2000: 'Empfang'},
};

const FITS = `
  const wide = [...document.querySelectorAll('main *, header *')].filter(element =>
    element.checkVisibility() && !element.closest('.scrolls, svg, .away, .skip') && element.getBoundingClientRect().right > innerWidth + 1);
  return {sideways: document.documentElement.scrollWidth > innerWidth,
    wide: wide.slice(0, 2).map(element => element.tagName + ' ' + element.textContent.slice(0, 30)),
    body: getComputedStyle(document.body).overflowY, high: document.documentElement.scrollHeight};`;

export async function shape(see, browser, front, folder) {
  const file = `${front.file}/board.json`, page = where => front.page('sup', `/board/${where}`);
  await writeFile(file, JSON.stringify({names: NAMES, title: 'Überlandwerk'}));
  await widths(see, browser, page, folder);
  await directions(see, browser, page);
  await clicks(see, browser, page);
  await paper(see, browser, page, folder);
  await wall(see, browser, page);
  await office(see, browser, page, file);
}

async function widths(see, browser, page, folder) {
  // 400 % of 1280 x 1024 are 320 x 256 points
  for (const [width, height] of [[320, 568], [320, 256], [390, 844], [768, 1024], [1366, 768], [1920, 1080], [4000, 1600]]) {
    await browser.size(width, height);
    for (const view of VIEWS) {
      await browser.fresh(page(`?since=0#${view}`));
      await live(browser);
      await sleep(700);
      const {sideways, wide, body, high} = await browser.run(FITS);
      see(`${view} at ${width} x ${height}: nothing beside the screen`, !sideways && !wide.length, wide.join('; ') || 'it slides');
      const beyond = ['queues', 'calls'].includes(view) && width > 320
        ? await browser.run(`const table = document.querySelector('#${view}-table');
          return table.offsetWidth - table.parentElement.clientWidth`) : 0;
      see(`${view} at ${width} x ${height}: each column is on the screen`, beyond <= 0, beyond);
      if (view === 'wall') {
        see(`the wall at ${width} x ${height}: all can be reached`, body !== 'hidden' || high <= height, `${body} ${high}`);
      }
      if (['320 568', '768 1024', '1366 768', '4000 1600'].includes(`${width} ${height}`)) {
        await browser.picture(join(folder, `${view}-${width}.png`));
      }
    }
  }
  await browser.size(1920, 1080);
}

/** A name has a direction of its own, and is text. */
async function directions(see, browser, page) {
  await browser.open(page('?since=0#queues'));
  await live(browser);
  await sleep(500);
  const told = await browser.run(`return [...document.querySelectorAll('#queues-table tbody tr')].map(row => {
    const bdi = row.querySelector('th bdi');
    return bdi && [bdi.textContent, row.querySelector('th').textContent];
  })`);
  const wanted = Object.entries(NAMES.groups);
  see('names stand in <bdi>, as they are',
    wanted.every(([group, name]) => told.some(one => one && one[0] === name && one[1] === `${name} (${group})`)),
    JSON.stringify(told.slice(0, 6)));
  see('none of them is HTML', await browser.run('return !document.querySelector("main img, main script")'));
  const order = await browser.run(`
    const range = document.createRange();
    const cell = [...document.querySelectorAll('#queues-table tbody th')].find(one => one.textContent.includes('خدمة'));
    const last = cell.firstElementChild.lastChild;
    range.selectNodeContents(cell.querySelector('bdi'));
    const name = range.getBoundingClientRect();
    range.selectNodeContents(last);
    const number = range.getBoundingClientRect();
    return last.textContent + (name.left < number.left || number.top > name.top + name.height / 2)`);
  see('the number stands behind a name from right to left', order === ' (101)true', order);
}

/** A second click moves nothing, and the way to the figures leaves the view. */
async function clicks(see, browser, page) {
  await browser.size(390, 844);
  await browser.fresh(page('?since=0#wall'));
  await live(browser);
  for (const view of VIEWS) {
    for (let click = 0; click < 2; click++) await browser.click(`nav a[href="#${view}"]`);
    await sleep(400);
    see(`${view}: a second click moves nothing`, await browser.run('return scrollY + document.body.scrollTop') === 0,
      await browser.run('return scrollY'));
  }
  await browser.size(1920, 1080);
  await browser.run('location.hash = "queues"');
  await sleep(300);
  await browser.run('document.querySelector("#skip").focus(); document.querySelector("#skip").click()');
  const [hash, focus] = await browser.run('return [location.hash, document.activeElement.id]');
  see('the way to the figures keeps the view', hash === '#queues' && focus === 'main', `${hash} ${focus}`);
  await browser.run('location.hash = "constructor"');
  await sleep(400);
  see('an address that is no view is the wall', await browser.run('return document.body.dataset.view') === 'wall');
}

async function paper(see, browser, page, folder) {
  await browser.open(page('?since=0&theme=dark#wall'));
  await live(browser);
  await sleep(500);
  await browser.command('Emulation.setEmulatedMedia', {media: 'print'});
  await sleep(300);
  const told = await browser.run(`const shown = element => element.checkVisibility();
    return {rows: [...document.querySelectorAll('#wall-table tbody tr')].filter(shown).length, all: window.board.state().groups.size,
      nav: shown(document.querySelector('nav')), button: [...document.querySelectorAll('button')].filter(shown).length,
      back: getComputedStyle(document.body).backgroundColor}`);
  see('on paper the wall has all groups, and no buttons', told.rows === told.all && !told.nav && !told.button, JSON.stringify(told));
  see('paper is white', told.back.match(/\d+/g).slice(0, 3).every(part => Number(part) > 230), told.back);
  await browser.picture(join(folder, 'wall-print.png'));
  await browser.command('Emulation.setEmulatedMedia', {media: '', features: [{name: 'forced-colors', value: 'active'}]});
  await browser.fresh(page('?since=0#day'));
  await live(browser);
  await sleep(800);
  const marks = await browser.run(`return [getComputedStyle(document.querySelector('nav [aria-current]')).borderTopWidth,
    [...document.querySelectorAll('.key li')].map(key => getComputedStyle(key, '::before').borderTopColor)]`);
  see('forced colours leave the open view and the keys told apart', parseFloat(marks[0]) >= 2 && new Set(marks[1]).size > 1,
    JSON.stringify(marks));
  await browser.picture(join(folder, 'day-forced.png'));
  await browser.command('Emulation.setEmulatedMedia', {media: '', features: []});
}

/** On 55 inches, 1920 x 1080, from 5 m: a figure's height of 16 minutes of arc in a row, 10 in a head. A point is 0.634 mm, a minute 1.454
 * mm; a figure is 0.73 of its font's size. */
async function wall(see, browser, page) {
  await browser.fresh(page('?since=0#wall'));
  await live(browser);
  await sleep(600);
  const sizes = await browser.run(`
    const size = selector =>
      Math.min(...[...document.querySelectorAll(selector)].filter(one => one.checkVisibility())
        .map(one => parseFloat(getComputedStyle(one).fontSize)));
    return [size('#wall-table tbody td'), size('#wall-table thead th'), size('#status'),
      document.querySelectorAll('#wall-table tbody tr:not([hidden])').length]`);
  const minutes = size => size * 0.73 * 0.634 / 1.454;
  see('rows of 16 minutes of arc, heads of 10, the status of 10',
    minutes(sizes[0]) >= 16 && minutes(sizes[1]) >= 10 && minutes(sizes[2]) >= 10, sizes.map(minutes).map(one => one.toFixed(1)));
  see('and some groups have room, though their names are long', sizes[3] >= 3, sizes[3]);
  await browser.open(page('?since=0&rows=12#wall'));
  await live(browser);
  await sleep(600);
  const twelve = await browser.run(`return document.querySelectorAll('#wall-table tbody tr:not([hidden])').length`);
  const {wide: sideways} = await browser.run(FITS);
  see('twelve groups, where so many are wanted', twelve >= 12 && !sideways.length, `${twelve} ${sideways}`);
  await browser.open(page('?since=0&groups=100,101,102#wall'));
  await live(browser);
  await sleep(600);
  const few = await browser.run(`return parseFloat(getComputedStyle(document.querySelector('#wall-table tbody td')).fontSize)`);
  const {wide} = await browser.run(FITS);
  see('few groups grow, as far as the screen is wide', few > sizes[0] * 1.02 && !wide.length, `${few} ${sizes[0]} ${wide}`);
}

/** A board.json that is none, and one with settings. */
async function office(see, browser, page, file) {
  const told = () =>
    browser.run(`return [document.querySelector("#fault").checkVisibility() && document.querySelector("#fault").textContent,
      document.querySelector("#title").textContent, document.documentElement.lang, window.board.settings.limit,
      window.board.settings["long.100"] ?? 0]`);
  for (const [what, text, wanted] of [
    ['no JSON', '{"title": ', "board.json of the office can't be used: board.json,Help line,en,20,0"],
    ['a list', '[1]', "board.json of the office can't be used: board.json,Help line,en,20,0"],
    ['no zone', '{"zone":"Mars/Base","title":"T"}', "board.json of the office can't be used: zone,T,en,20,0"],
    ['all of it', '{"title":"Nord","language":"de","zone":"Europe/Berlin","limits":{"limit":45,"long.100":30}}', 'false,Nord,de,45,30'],
    ['what is not in its table',
      '{"titel":"x","limits":{"limit":"abc","foo":3,"long":30},"names":{"groups":[1,2],"agents":{"7":[]},"teams":{}}}',
      "board.json of the office can't be used: titel, names.teams, names.groups, names.agents.7, limits.limit, limits.foo,"
        + 'Help line,en,20,0'],
    ['a language without words', '{"language":"xx"}', "board.json of the office can't be used: language,Help line,en,20,0"],
    ['nothing', '{}', 'false,Help line,en,20,0']]) {
    await writeFile(file, text);
    await browser.fresh(page('#queues'));
    await live(browser);
    see(`board.json with ${what}`, String(await told()) === wanted, String(await told()));
  }
}
