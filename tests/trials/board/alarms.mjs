// The alarms: what is one and what isn't, since when, that they are told once, and what was seen.
import {sleep, until} from './browser.mjs';
import {live} from './page.mjs';
import {Story} from './story.mjs';

const WAITS = 150, FIRST = 1600;
// how long ago the tenth wait of a group ended: before, a share said nothing
const TENTH = {lost: FIRST - 9 * 120 - 30, level: FIRST - 10 - 9 * 120 - 40};

/** Of four groups one has a caller and nobody there, one a caller who waits, one lost eleven callers, and one answers all late. Of the
 * last half hour each fact is worst once: what is one group's is one alarm. */
export function troubles(now) {
  const story = new Story(now - 7200, [['100', 'Nobody'], ['101', 'Waits'], ['102', 'Lost'], ['103', 'Late']]);
  story.ask(now - 7200, 'setAgentState', {agent: '1', requested: 'loggedOff'});
  story.ask(now - 7200, 'setAgentState', {agent: '2', requested: 'notReady'});
  for (let turn = 0; turn < 12; turn++) {
    story.call(now - FIRST + 120 * turn, 2, 30, turn ? 0 : 60);
    story.call(now - FIRST + 10 + 120 * turn, 3, 40, 60);
  }
  story.ask(now - WAITS, 'arriveCall', {caller: '0401', called: '101'});
  story.ask(now - 5, 'arriveCall', {caller: '0402', called: '100'});
  return story.lines;
}

/** What makes itself noticed is counted in the page. */
const NOTICED = `
  window.noticed = {tones: 0, notes: []};
  window.AudioContext = class { constructor() { this.state = 'running'; this.currentTime = 0; this.destination = {}; } resume() {}
    createOscillator() { window.noticed.tones++; return {frequency: {}, connect: to => to, start() {}, stop() {}}; }
    createGain() { return {gain: {linearRampToValueAtTime() {}}, connect() {}}; }
  };
  window.Notification = class {
    static permission = 'granted';
    static requestPermission() {}
    constructor(title, {body}) { window.noticed.notes.push(body); }
  };`;

const list = browser =>
  browser.run(`return [...document.querySelectorAll('#alarm li')].map(item =>
    [item.dataset.key, item.querySelector('b').textContent, item.querySelector('.since').textContent, item.hasAttribute('data-seen')])`);

export async function alarms(see, browser, desk, address, made) {
  await browser.command('Page.enable');
  const {identifier} = await browser.command('Page.addScriptToEvaluateOnNewDocument', {source: NOTICED});
  await browser.open(`${address}?since=0&tone=1&notify=1#queues`);
  await live(browser);
  await until(async () => (await browser.run('return document.title')).startsWith('■ 4 alarms'), 10);
  const told = await browser.text('#alarm-told');
  see('a screen reader is told how many there are', /^[2-4] alarms$/.test(told), told);
  await onPaper(see, browser);
  await anew(see, browser);
  await browser.click('#alarms-rest');
  await sleep(300);
  const found = await list(browser), keys = found.map(([key]) => key);
  see('each alarm, and none beside', String([...keys].sort()) === 'level.103,lost.102,nobody.100,wait.101', String(keys));
  see('the worst first', String(keys) === 'nobody.100,wait.101,lost.102,level.103', String(keys));
  see('its words',
    found[0]?.[1] === '■ Nobody: 1 caller waits, and nobody is logged on'
      && found.some(([key, words]) => key === 'lost.102' && words === '■ Lost: 92% gave up in the last half hour, the goal is 5%'),
    found.map(one => one[1]).join('; '));
  const late = /, (\d):(\d\d)$/.exec(found.find(([key]) => key === 'wait.101')?.[2] ?? '');
  const waits = Date.now() / 1000 - (await desk.get('/queues/101')).calls[0].since;
  see('since when a wait is too long', late && Math.abs(60 * Number(late[1]) + Number(late[2]) - (waits - 120)) < 4,
    `${late?.[0]} ${waits}`);
  for (const [kind, key] of [['lost', 'lost.102'], ['level', 'level.103']]) {
    const [, minutes, seconds] = /, (\d+):(\d\d)$/.exec(found.find(one => one[0] === key)?.[2] ?? '') ?? [];
    const ago = TENTH[kind] + Date.now() / 1000 - made;
    see(`since when ${key} is so`, Math.abs(60 * Number(minutes) + Number(seconds) - ago) < 4, `${minutes}:${seconds} and not ${ago}`);
  }
  const more = await browser.text('#alarm [data-key="lost.102"] .detail');
  see('what else is so of a group is beside its worst', more === 'Lost: only 0% in time in the last half hour, the goal is 80%', more);
  see('the title counts them', (await browser.run('return document.title')).startsWith('■ 4 alarms – '),
    await browser.run('return document.title'));
  await noticed(see, browser);
  await seen(see, browser, address);
  await limits(see, browser, address);
  await browser.command('Page.removeScriptToEvaluateOnNewDocument', {identifier});
}

/** An element that is used again keeps nothing of what it was, but what others gave it. */
async function anew(see, browser) {
  const kept = await browser.run(`return import(new URL('draw.js', location.href)).then(({make, put, set}) => {
    const place = document.createElement('div');
    put(place, make('p.one', {title: 'one', hidden: true, onclick() {}}, 'one'));
    const first = place.firstChild;
    set(first, {lang: 'en'});
    put(place, make('p', 'two'));
    return [place.innerHTML, first === place.firstChild, first.onclick === null];
  })`);
  see('an element that is used again', String(kept) === '<p lang="en">two</p>,true,true', String(kept));
}

/** What has no room on the screen is printed. */
async function onPaper(see, browser) {
  const shown = () => browser.run('return [...document.querySelectorAll("#alarm li")].filter(one => one.checkVisibility()).length');
  const onScreen = await shown();
  await browser.command('Emulation.setEmulatedMedia', {media: 'print'});
  await until(async () => await shown() === 4, 3);
  const printed = await shown();
  await browser.command('Emulation.setEmulatedMedia', {media: ''});
  see('all alarms are printed, of which the screen has two', onScreen === 2 && printed === 4, `${onScreen} ${printed}`);
}

/** A tone and a notification for what is new; a screen reader is told once, and not each second. */
async function noticed(see, browser) {
  const {tones, notes} = await browser.run('return window.noticed');
  // those of the day come once it is counted
  see('a tone, and a notification for each',
    tones >= 2 && tones <= 4 && notes.length === 4 && notes.every(note => !/[\u2068\u2069]/.test(note)), JSON.stringify([tones, notes]));
  await browser.run(`window.told = [];
    for (const part of document.querySelectorAll('[role=alert], [role=status]')) {
      new MutationObserver(() => window.told.push(part.textContent)).observe(part, {childList: true, characterData: true, subtree: true});
    }`);
  await sleep(4000);
  const told = await browser.run('return window.told');
  see('nothing is read out again', told.length === 0, told.slice(0, 3).join('; '));
  // a page that slept for three minutes
  await browser.run('const real = Date.now; Date.now = () => real() + 180000');
  await sleep(2500);
  const {notes: later} = await browser.run('return window.noticed');
  see('what goes on is no new alarm behind a sleep', new Set(later).size === later.length, later.join('; '));
}

/** What was seen stays so, also in a page that is loaded anew; a second click does no harm. */
async function seen(see, browser, address) {
  await browser.run(`const button = document.querySelector('#alarm [data-key="wait.101"] button'); button.click(); button.click();`);
  await sleep(300);
  await browser.fresh(`${address}?since=0#queues`);
  await live(browser);
  await until(() => browser.run('return document.querySelectorAll("#alarm li").length > 0'), 5);
  if (await browser.run('return !document.querySelector("#alarms-rest").hidden')) await browser.click('#alarms-rest');
  await sleep(300);
  const found = await list(browser);
  see('what was seen stays seen', String(found.filter(one => one[3]).map(one => one[0])) === 'wait.101' && found.length === 4,
    JSON.stringify(found));
  see('and goes last', found[3]?.[0] === 'wait.101' && found[3][1].startsWith('□'), found[3]);
}

/** Limits of a group, and own groups. */
async function limits(see, browser, address) {
  await browser.fresh(`${address}?since=0&groups=101,102&bad.101=900&lost.102=60#queues`);
  await live(browser);
  await sleep(500);
  const keys = (await list(browser)).map(([key]) => key);
  see('a group has its own limits', String(keys) === 'level.102', String(keys));
}

/** Without a plan, and without anybody, a line says so. */
export async function nothing(see, browser, none, planned) {
  for (const [front, view, words] of [[none, 'queues', 'No group is planned yet.'], [planned, 'agents', 'Nobody is logged on.'],
    [planned, 'calls', '']]) {
    await browser.fresh(front.page('sup', `/board/#${view}`));
    await until(() => browser.run('return document.querySelector("#status").dataset.kind === "live"'), 20);
    see(`${view} of nothing`, await until(async () => await browser.text('#empty') === words, 20), await browser.text('#empty'));
  }
  see('no call is said', await until(async () => await browser.text('#calls-rest') === 'No calls.', 5), await browser.text('#calls-rest'));
}
