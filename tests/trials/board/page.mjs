// The supervisor's board in a browser, over a desk in work.
import {spawn} from 'node:child_process';
import {join} from 'node:path';
import {sleep, until} from './browser.mjs';
import {reportLines, run} from './desk.mjs';
import {contrast, unreached, untold} from './looks.mjs';

export const VIEWS = ['wall', 'queues', 'agents', 'calls', 'day', 'events'];
export const PHONE = [390, 844], SCREEN = [1920, 1080];
const HERE = new URL('.', import.meta.url).pathname;

export const live = browser =>
  until(() => browser.run('return window.board?.counted() && document.querySelector("#status").dataset.kind === "live"'), 60);

/** People who carry the day on; their program can be stopped and let go on. */
export function people(desk, calls) {
  const child = spawn('python3', ['-B', join(HERE, 'live.py'), '--desk', desk.port, '--calls', calls].map(String),
    {stdio: ['ignore', 'ignore', 'inherit']});
  const ended = new Promise(done => child.on('exit', done));
  return {stop: () => child.kill('SIGUSR1'), goOn: () => child.kill('SIGUSR2'), end: () => { child.kill('SIGKILL'); return ended; }};
}

/** What the day's figures are, reckoned from the desk's events by another program. */
export async function reckoned(desk, ...words) {
  return JSON.parse(await run('python3', ['-B', join(HERE, 'figures.py'), '--desk', desk.port, ...words]));
}

const SHOWN = `return {moment: Date.now() / 1000,
  tiles: [...document.querySelectorAll('#totals div')].map(tile => ['dt', 'b', 'small'].map(part => tile.querySelector(part).textContent)),
  rows: [...document.querySelectorAll(arguments[0] + ' tbody tr')].map(row => [...row.children].map(cell => cell.textContent))}`;

/** Each number on the wall, in the queues, of the agents and in what each did today, against the desk's report, its reads and its
 * events. */
export async function numbers(see, browser, desk, folks, moments, {groups = [], limits = {}} = {}) {
  see('the board is live, and has the whole day', await live(browser));
  for (let moment = 1; moment <= moments; moment++) {
    await sleep(1500);
    folks.stop();
    await sleep(300);
    const {last} = await desk.get('/events?after=999999999999999');
    see(`moment ${moment}: the board has the last event within 3 s`,
      Boolean(await until(() => browser.run(`return window.board.state().last === ${last}`), 3)));
    await sleep(1100);
    for (const view of ['wall', 'queues']) {
      await browser.run(`location.hash = '${view}'`);
      await sleep(250);
      const wrong = await wrongNumbers(desk, view, await browser.run(SHOWN, `#${view}-table`), {groups, limits});
      see(`moment ${moment}: the numbers of ${view}`, wrong.length === 0, wrong.slice(0, 3).join('; '));
    }
    await browser.run(`location.hash = 'agents'; document.querySelector('#agents-details').open = true`);
    await sleep(400);
    const told = await browser.run(
      `return [...document.querySelectorAll('#agents-list li:not([hidden])')].map(tile =>
        ['strong', '.words', 'small',
          '.calls'].map(part =>
            [...tile.querySelectorAll(part === '.calls' ? '.calls button' : part)].map(one => one.textContent).join('')))`);
    const wrong = [...wrongTiles(await desk.get('/snapshot'), told, groups),
      ...await wrongDays(desk, await browser.run(SHOWN, '#agents-table'), groups)];
    see(`moment ${moment}: the agents`, wrong.length === 0 && told.length > 0, wrong.slice(0, 3).join('; '));
    folks.goOn();
  }
}

const seconds = text => text === '–' ? null : text.split(':').reduce((sum, part) => 60 * sum + Number(part), 0);
/** A digit more where it is the goal in whole percent alone. */
const percent = (part, whole, goal) => {
  const share = 100 * part / whole;
  return !whole ? '–' : `${share.toFixed(Math.round(share) === goal && Math.abs(share - goal) > 1e-9 ? 1 : 0)}%`;
};
const plain = text => text.replace(/^[■▲] /, '').replaceAll(',', '');
const NONE = {entered: 0, answered: 0, abandoned: 0, moved: 0, waited: 0, within: 0, late: 0, handled: 0, handling: 0};

async function wrongNumbers(desk, view, {tiles, rows, moment}, {groups, limits}) {
  const wrong = [], report = reportLines(await desk.get('/reports/queues')).filter(line => !groups.length || groups.includes(line[0]));
  const passed = Date.now() / 1000 - moment, snapshot = await desk.get('/snapshot');
  const day = await reckoned(desk, '--end', Math.floor(moment), '--groups', groups.join(','),
    ...Object.entries(limits).flatMap(([group, limit]) => ['--limit-of', `${group}=${limit}`]));
  const see = (what, has, wanted) => { if (String(has) !== String(wanted)) wrong.push(`${what} is ${has} and not ${wanted}`); };
  const near = (what, has, wanted, by = 2.5 + passed) => {
    if ((has === null) !== (wanted === null) || Math.abs(has - wanted) > by) wrong.push(`${what} is ${has} and not ${wanted}`);
  };
  const level = of => percent(of.within, of.answered + of.late, 80), lost = of => percent(of.abandoned, of.answered + of.abandoned, 5);
  const average = (part, whole) => whole ? Math.floor(part / whole) : null;
  const stations = new Map(snapshot.stations.map(station => [station.device, station]));
  const serves = agent => !groups.length || (agent.groups ?? [agent.group]).some(group => groups.includes(group));
  const staff = snapshot.agents.filter(agent => agent.state !== 'null' && serves(agent));
  const ready = staff.filter(agent => agent.state === 'ready' && !stations.get(agent.device).connections.some(one => one.state !== 'fail'));
  const names = new Map(snapshot.groups.map(group => [view === 'wall' ? group.name : `${group.name} (${group.device})`, group.device]));
  const sum = place => report.reduce((all, line) => all + Number(line[place]), 0);
  const longest = group => group in day.waiting ? moment - day.waiting[group] : null;
  const most = of => of.reduce((found, one) => one === null ? found : Math.max(found ?? 0, one), null);
  const tile = name => (tiles.find(one => one[0].startsWith(name)) ?? ['', '', '']).map(plain), all = {...NONE, ...day.groups.all};
  const sent = group => day.sent[group] ?? 0, ringing = sum(2) + report.reduce((all, [group]) => all + sent(group), 0);
  see('Waiting', tile('Waiting').slice(1), [sum(1), ringing ? `and ${ringing} ringing` : '']);
  near('Longest wait', seconds(tile('Longest wait')[1]), most(report.map(([group]) => longest(group))));
  see('Agents ready', tile('Agents ready').slice(1), [ready.length, `of ${staff.length} logged on`]);
  see('In time', tile('In time')[1], level(all));
  see('Abandoned', tile('Abandoned').slice(1), [all.abandoned, `${lost(all)} goal 5%`]);
  see('Answered', tile('Answered')[1], all.answered);
  see('the averages', [tile('Speed')[1], tile('Handling')[1]].map(seconds),
    [average(all.waited, all.answered), average(all.handling, all.handled)]);
  const spent = Object.entries(day.agents).filter(([id]) => staff.some(({agent}) => agent === id) || !groups.length)
    .map(([, of]) => [(of.talk ?? 0) + (of.work ?? 0), of.ready ?? 0])
    .reduce(([busy, free], [more, other]) => [busy + more, free + other], [0, 0]);
  if (!groups.length) near('Occupancy', Number(tile('Occupancy')[1].replace('%', '')), 100 * spent[0] / (spent[0] + spent[1]), 1);
  see('groups', rows.length, report.length);
  for (const row of rows) {
    const group = names.get(row[0]), line = report.find(one => one[0] === group) ?? [], of = {...NONE, ...day.groups[group]};
    const here = agent => (agent.groups ?? [agent.group]).includes(group);
    const free = `${ready.filter(here).length} / ${staff.filter(here).length}`;
    see(`${row[0]}: waiting`, row[2], line[1]);
    near(`${row[0]}: longest`, seconds(row[3]), longest(group));
    if (view === 'wall') { see(`${row[0]}: ready, in time`, [row[4], plain(row[6])], [free, level(of)]); continue; }
    const next = (await desk.get(`/queues/${group}`)).ready[0], named = snapshot.agents.find(agent => agent.agent === next)?.name ?? '–';
    see(`${row[0]}: ringing, ready, next, in time`, [row[4], row[5], row[7], plain(row[11])],
      [Number(line[2]) + sent(group), free, named, level(of)]);
    see(`${row[0]}: in time by stay`, plain(row[12]), percent(of.withinStay ?? 0, (of.answeredStay ?? 0) + (of.lateStay ?? 0)));
    see(`${row[0]}: entered, answered, abandoned, moved`, [13, 14, 15, 17].map(place => plain(row[place])),
      [of.entered, of.answered, of.abandoned, of.moved]);
    // the desk's own report counts stays in queues
    see(`${row[0]}: the report`, [of.entered, of.answeredStay ?? 0, of.abandonedStay ?? 0, of.moved], line.slice(3, 7));
    see(`${row[0]}: abandoned, in percent`, plain(row[16]), lost(of));
    see(`${row[0]}: average, handling`, [seconds(row[18]), seconds(row[19])],
      [average(of.waited, of.answered), average(of.handling, of.handled)]);
  }
  return wrong;
}

/** How what each agent did today differs from what the desk's events say. */
async function wrongDays(desk, {rows, moment}, groups) {
  const {agents} = await reckoned(desk, '--end', Math.floor(moment)), wrong = [];
  for (const [who, id, , calls, ...times] of rows) {
    const of = {calls: 0, missed: 0, talk: 0, work: 0, ready: 0, notReady: 0, ...agents[id]}, missed = times.pop();
    const wanted = [of.talk, of.work, of.ready, of.notReady];
    if (Number(calls) !== of.calls || Number(missed) !== of.missed
      || times.some((time, place) => Math.abs(seconds(time) - wanted[place]) > 3)) {
      wrong.push(`${who}: ${[calls, missed, ...times]} and not ${[of.calls, of.missed, ...wanted]}`);
    }
  }
  if (!rows.length && !groups.length) wrong.push('no agent has a line');
  return wrong;
}

const ALONE = {ready: 'ready', busy: 'on a call', workingAfterCall: 'after-call work', notReady: 'not ready'};

/** How the tiles of the agents who are logged on differ from a snapshot: name, state, station, calls and groups; no event tells what is
 * pending. */
function wrongTiles({agents, calls, groups, stations}, tiles, own) {
  const names = new Map(groups.map(group => [group.device, group.name]));
  const ends = calls.flatMap(call => call.connections.map(one => ({...one, call: call.call})));
  const isOwn = agent => !own.length || (agent.groups ?? [agent.group]).some(one => own.includes(one));
  const there = agents.filter(agent => agent.state !== 'null' && isOwn(agent));
  const wanted = there.map(({agent, name, state, device, group, groups: several}) => {
    const here = ends.filter(one => one.device === device), given = here.find(one => one.group);
    const free = state === 'ready' && here.some(one => one.state !== 'fail');
    const callers = here.filter(one => !stations.some(station => station.device === calls.find(({call}) => call === one.call).caller));
    const order = ['connected', 'hold', 'alerting'];
    const customers = order.flatMap(state => callers.find(one => one.state === state) ?? [])[0], has = given ?? customers;
    const words = has ? {alerting: 'ringing', hold: 'call on hold', connected: 'on a call'}[has.state] : free ? 'own call' : ALONE[state];
    return [name, words, [`${agent} at ${device}`, ...(several ?? [group]).map(one => names.get(one))].join(', '),
      here.map(one => `call ${one.call}`).join('')].join(' | ');
  });
  const shown = tiles.map(([name, words, place, calls]) => [name, words.replace(/: .*/, ''), place, calls].join(' | '));
  return [...shown.filter(tile => !wanted.includes(tile)).map(tile => `+${tile}`),
    ...wanted.filter(tile => !shown.includes(tile)).map(tile => `-${tile}`)];
}

/** The events of own groups: each that is shown is of one of their calls or agents, and no call that came to one of them is left out. */
export async function ownEvents(see, browser, desk, address, own) {
  await browser.fresh(`${address}?since=0&groups=${own}#events`);
  await live(browser);
  await sleep(1500);
  const shown = (await browser.run('return [...document.querySelectorAll("#events-list li")].map(one => Number(one.dataset.key))'))
    .sort((one, other) => one - other);
  const events = await desk.events(0), {agents, stations} = await desk.get('/snapshot');
  const staff = new Set(agents.filter(one => (one.groups ?? [one.group]).some(group => own.includes(group))).map(one => one.agent));
  const seats = stations.filter(one => staff.has(one.agent)).map(one => one.device);
  const calls = new Set(
    events.filter(one => 'call' in one && [one.device, one.group, one.to].some(place => own.includes(place) || seats.includes(place)))
      .map(one => one.call));
  const isOwn = one => calls.has(one.call) || staff.has(one.agent) || own.includes(one.group);
  const byNumber = new Map(events.map(one => [one.number, one]));
  const strange = shown.map(number => byNumber.get(number)).filter(one => one && !isOwn(one));
  const missing = events.filter(one =>
    one.number > shown[0] && one.number <= shown[shown.length - 1] && one.event === 'queued' && own.includes(one.device)
      && !shown.includes(one.number));
  see('events are those of the own groups', shown.length > 50 && !strange.length && !missing.length,
    `${shown.length} ${JSON.stringify(strange[0])} ${JSON.stringify(missing[0])}`);
}

/** That nothing moves while the figures change, but for the wall, which is sorted anew. The limits are such that no alarm comes, which has
 * its line above all else. */
export async function still(see, browser, address, seconds) {
  for (const view of ['queues', 'agents']) {
    await browser.open(`${address}?goal=1&lost=100&long=86400&bad=86400#${view}`);
    await live(browser);
    await sleep(1000);
    await browser.run(`window.moved = []; new PerformanceObserver(list => {
      for (const {value, sources} of list.getEntries()) {
        window.moved.push([value,
          ...sources.map(({node}) => (node?.id || node?.parentElement?.id || node?.nodeName) + ': ' + node?.textContent.slice(0, 40))]);
      }
    }).observe({type: 'layout-shift'})`);
    await sleep(1000 * seconds);
    const moved = await browser.run('return window.moved');
    see(`${view}: nothing moves`, moved.reduce((sum, [value]) => sum + value, 0) < 0.001, JSON.stringify(moved));
  }
}

/** Contrast, keyboard, names and pictures of each view. */
export async function looks(see, browser, folks, address, folder) {
  for (const theme of ['dark', 'light']) for (const view of VIEWS) {
    await browser.open(`${address}?theme=${theme}#${view}`);
    await live(browser);
    await sleep(600);
    const {texts, least, low, sideways} = await contrast(browser);
    see(`${view}, ${theme}: contrast of ${texts} texts, least ${least.toFixed(2)}`, texts > 20 && !low.length && !sideways,
      low.slice(0, 3).join('; '));
    await browser.run('document.activeElement.blur()');
    await browser.picture(join(folder, `${view}-${theme}.png`));
    if (view === 'wall') {
      const least = await browser.run(
        `return Math.min(
          ...[...document.querySelectorAll('#wall-table tbody :is(th, td)')].map(cell => parseFloat(getComputedStyle(cell).fontSize)))`);
      see(`the wall's rows, ${theme}: at least 32 px`, least >= 32, least);
    }
    if (theme === 'light') continue;
    // a line that moves up past the focus meanwhile is no control that the keyboard doesn't reach
    folks.stop();
    await sleep(2000);
    const unseen = await unreached(browser);
    await browser.run(`window.first = [...document.querySelectorAll("main :is(tbody, li) button")].find(one => one.checkVisibility());
      window.first?.focus()`);
    await sleep(2500);
    const focused = await browser.run('return window.first?.isSameNode(document.activeElement) ?? true');
    see(`${view}: what has the focus keeps it`, focused);
    folks.goOn();
    see(`${view}: every control by keyboard`, !unseen.length, `${unseen.length}: ${unseen.slice(0, 2).join('; ')}`);
    const silent = await untold(browser,
      ['heading', 'navigation', 'main', 'status',
        {wall: 'table', queues: 'table', agents: 'list', calls: 'table', day: 'image', events: 'list'}[view]]);
    see(`${view}: nothing without a name`, !silent.length, silent.slice(0, 3).join('; '));
  }
  await browser.size(...PHONE);
  for (const view of VIEWS) {
    await browser.open(`${address}#${view}`);
    await live(browser);
    await sleep(600);
    const {sideways} = await contrast(browser);
    see(`${view}: no sideways scrolling on a phone`, !sideways);
    await browser.picture(join(folder, `${view}-phone.png`));
  }
  await browser.size(...SCREEN);
  const said = await browser.said();
  see('the console is empty', !said.length, said[0]);
}

/** Settings that stand in the address, and change it. */
export async function settings(see, browser, address) {
  await browser.open(`${address}?limit=45&title=North&theme=light#queues`);
  await live(browser);
  const shown = await browser.run(`return [document.querySelector("#title").textContent,
    document.querySelector("#totals div:nth-child(4) dt").textContent, document.querySelector("[name=limit]").value, document.title]`);
  see('settings of the address', String(shown).startsWith('North,In time: within 45 s,45,') && shown[3].endsWith('North: Queues'),
    String(shown));
  await browser.run(`const field = document.querySelector("[name=goal]"); field.value = "90";
    field.dispatchEvent(new Event("change", {bubbles: true}))`);
  const search = await browser.run('return location.search');
  see('a changed setting stands in the address', ['limit=45', 'title=North', 'goal=90'].every(part => search.includes(part)), search);
  await browser.run(`const field = document.querySelector("[name=long]"); field.value = "300";
    field.dispatchEvent(new Event("change", {bubbles: true}))`);
  see('long is not more than too long',
    await browser.text('#set-told') === 'Too long has to be more than long'
      && !(await browser.run('return location.search')).includes('long'), await browser.text('#set-told'));
  const shares = await browser.run(
    `return import(new URL('words.js', location.href)).then(({percent}) =>
      [percent(0.052, 5), percent(0.05, 5), percent(0.058, 5), percent(0.052), percent(null, 5)])`);
  see('a share is told from its goal', String(shares) === '5.2%,5%,6%,5%,–', String(shares));
  await browser.fresh(`${address}?since=soon&limit=-3&theme=pink&long=300&bad=100&groups=x&group=100&states=ready&find=a&sort=time#agents`);
  await live(browser);
  const {settings, search: kept} = await browser.run(`const {since, limit, theme, long, bad, groups} = window.board.settings;
    return {settings: [since, limit, theme, long, bad, groups], search: location.search}`);
  see('what is no value is as it comes', String(settings) === '00:00,20,,300,300,', String(settings));
  see('filters stay in the address', ['group=100', 'states=ready', 'find=a', 'sort=time'].every(part => kept.includes(part)), kept);
  const chosen = await browser.run(`return [document.querySelector("[name=group]").value, document.querySelector("[name=find]").value,
    document.querySelector("#states [aria-pressed=true]")?.dataset.doing, document.querySelector("[name=sort]").value]`);
  see('and in their fields', String(chosen) === '100,a,ready,time', String(chosen));
}

/** What the filters count, how agents are ordered, where rows and tiles lead, and what is said where nobody is found. */
export async function ways(see, browser, desk, address) {
  const go = async (words, view) => { await browser.fresh(`${address}?since=0&${words}#${view}`); await live(browser); await sleep(900); };
  const tiles = part =>
    browser.run(`return [...document.querySelectorAll("#agents-list li:not([hidden])")].map(tile =>
      tile.querySelector(arguments[0]).textContent)`, part);
  const serves = async group =>
    (await desk.get('/snapshot')).agents.filter(one => one.state !== 'null' && (one.groups ?? [one.group]).includes(group)).length;
  const [{device: group}] = (await desk.get('/snapshot')).groups;
  await go(`group=${group}&sort=time`, 'agents');
  const counts = await browser.run(
    `return [...document.querySelectorAll("#states button:not([data-doing=null])")].map(button =>
      Number(button.textContent.match(/\\d+$/)[0]))`);
  const staff = await serves(group);
  see('the buttons count the agents of the group',
    staff > 0 && counts.reduce((sum, one) => sum + one) === staff && (await tiles('strong')).length === staff, `${counts} ${staff}`);
  const times = (await tiles('time')).map(text => seconds(text.replace('! ', '')));
  see('who does something longest stands first', times.length > 2 && times.every((time, place) => !place || time <= times[place - 1] + 1),
    String(times));
  await go('notReady=1&states=notReady', 'agents');
  const long = await tiles('time');
  see('from how long on it is long is a setting', long.length > 0 && long.every(text => text.startsWith('! ')), String(long));
  await go('find=nobody+here', 'agents');
  see('nobody found is said', await browser.text('#empty') === 'No agent is as you look for.', await browser.text('#empty'));
  const made = [];
  const waits = async () => (await desk.get('/snapshot')).calls.some(({connections}) => connections.some(one => one.state === 'queued'));
  while (made.length < 30 && !await waits()) {
    const invoke = made.length + 1;
    made.push((await desk.post({requester: 'ways', invoke, service: 'arriveCall', caller: '0307', called: group})).result.call);
  }
  await go('long=1&bad=2', 'calls');
  await until(() =>
    browser.run('return [...document.querySelectorAll("#calls-table .state")].some(cell => cell.textContent === "■ waiting")'), 5);
  const states = await browser.run(
    'return [...document.querySelectorAll("#calls-table tbody tr")].map(row => row.querySelector(".state").textContent)');
  see('a call that waits has the sign of its wait',
    states.some(text => text === '■ waiting') && !states.some(text => /^[●▲] waiting/.test(text)), states.slice(0, 5).join('; '));
  for (const [number, call] of made.entries()) {
    await desk.post({requester: 'ways-end', invoke: number + 1, service: 'clearConnection', call, device: '0307'});
  }
  await until(() => browser.run('return arguments[0].every(call => !document.querySelector(`#calls-table [data-key="${call}"]`))', made),
    10);
  await browser.click('#calls-table [data-press=agent]');
  await sleep(600);
  see('a call leads to its agent', await browser.run('return location.hash') === '#agents' && (await tiles('strong')).length === 1,
    String(await tiles('strong')));
  await browser.click('#agents-list li:not([hidden]) [data-press=calls]');
  await sleep(600);
  see('and back',
    await browser.run('return location.hash === "#calls" && document.querySelectorAll("#calls-table tbody tr").length') === 1);
  await go('', 'queues');
  await browser.click(`#queues-table [data-key="${group}"] [data-press=agents]`);
  await sleep(600);
  see('a group leads to its agents', await browser.run('return location.hash + window.board.settings.group') === `#agents${group}`,
    await browser.run('return location.href'));
  for (const [width, height] of [SCREEN, [1366, 768], [768, 1024]]) {
    await browser.size(width, height);
    await sleep(300);
    const rows = await browser.run(`const ends = {};
      for (const tile of [...document.querySelectorAll("#totals div")].filter(one => one.checkVisibility())) {
        const {top, right} = tile.getBoundingClientRect();
        ends[top] = Math.round(right);
      }
      return Object.values(ends)`);
    see(`no tile stands alone at ${width}`, rows.length <= 2 && new Set(rows).size === 1, String(rows));
  }
  await browser.size(...SCREEN);
}

/** An offer that nobody takes back, since nobody sends ticks. */
export async function alarm(see, browser, desk, address) {
  await browser.open(`${address}#wall`);
  await live(browser);
  const shown = () => browser.run('return document.querySelector("#alarm [data-key=ticks]")?.textContent ?? ""');
  see('no alarm while ticks come', await shown() === '', await shown());
  const {agents, groups} = await desk.get('/snapshot');
  const names = new Set(agents.filter(agent => agent.state === 'ready').flatMap(agent => agent.groups ?? [agent.group]));
  const group = groups.find(one => names.has(one.device));
  for (let call = 0; call < 3; call++) {
    await desk.post({requester: 'try', invoke: 100 + call, service: 'arriveCall', caller: '0301234',
      called: group?.device ?? groups[0].device});
  }
  see('an alarm where an offer rings on', Boolean(await until(async () => /Calls ring on without an end/.test(await shown()), 60)),
    await shown());
  await desk.post({requester: 'try', invoke: 110, service: 'tick'});
  see('and none behind a tick', Boolean(await until(async () => await shown() === '', 5)), await shown());
}

/** Which of the two is gone is said, of an open page and of one that is opened then: the gate, while the desk serves, or the desk. */
export async function gone(see, browser, front, desk, address) {
  const status = () => browser.text('#status-text');
  const says = async (what, words) => see(what, Boolean(await until(async () => words.test(await status()), 30)), await status());
  await front.stopGate();
  await says('that the gate is gone is said', /the gate does not run$/);
  await front.startGate('sup');
  await says('and the page goes on', /^Live$/);
  await desk.stop();
  await says('that the desk is gone is said', /the desk does not answer$/);
  await front.stopGate();
  await front.startGate('sup');
  await browser.open(address);
  await says('also by a gate that never reached it', /^No desk: the desk does not answer$/);
  await desk.serve();
  await says('and it begins by itself', /^Live$/);
}

/** Gate and nginx hang, one after the other: the page that is open says so within ten seconds, and its clocks stand. */
export async function hangs(see, browser, front, clock) {
  const status = () => browser.text('#status-text'), worker = Number(await run('pgrep', ['-P', front.children[1].pid]));
  for (const [what, hung] of [['the gate', front.children[0].pid], ['nginx', worker]]) {
    process.kill(hung, 'SIGSTOP');
    const begin = Date.now(), told = await until(async () => /^What you see is old/.test(await status()), 15);
    const seconds = (Date.now() - begin) / 1000;
    see(`${what} that hangs is told within 10 s`, told && seconds < 10.5, `${seconds} s: ${await status()}`);
    await sleep(1500);
    const stood = await clock();
    await sleep(2500);
    see(`no clock goes on without ${what}`, /\d:\d\d/.test(stood) && stood === await clock(), `${stood} ${await clock()}`);
    process.kill(hung, 'SIGCONT');
    see(`the page goes on by itself after ${what}`, Boolean(await until(async () => await status() === 'Live', 15)), await status());
  }
}

/**
 * In the place of the desk another one, which took a request while the clock was ahead. It comes once the gate has missed the old
 * one: no event tells of that request, and a gate that missed nothing reads anew each half a minute.
 */
export async function clockAhead(see, browser, desk, early, address) {
  const shown = () => browser.run('return document.querySelector("#alarm").hidden ? "" : document.querySelector("#alarm").textContent');
  const stop = async one => {
    await one.stop();
    await until(async () => (await browser.text('#status-text')).startsWith('What you see is old'), 10);
  };
  await stop(desk);
  for (const [what, seconds, told] of [['half a minute', 30, /^$/],
    ['an hour', 3600, /^■ The desk's time is (59:\d\d|1:00:00) ahead of the clock/]]) {
    const group = {service: 'addGroup', device: String(seconds), name: what, ring: 20, wrap: 0};
    await early.feed([`${Math.floor(Date.now() / 1000) + seconds} ${JSON.stringify({requester: 'early', invoke: seconds, ...group})}`]);
    await early.serve();
    await browser.open(`${address}?since=${seconds}#wall`);
    await live(browser);
    await sleep(1500);
    see(`a desk's time that is ${what} ahead`, Boolean(await until(async () => told.test(await shown()), 5)), await shown());
    await stop(early);
  }
  await desk.serve();
}

/** A desk that is gone, back, and another one. */
export async function losses(see, browser, desk, other, address) {
  // another desk's day may have begun before midnight
  await browser.open(`${address}?since=0#wall`);
  await live(browser);
  const status = () => browser.text('#status-text'), old = () => browser.run('return document.body.hasAttribute("data-old")');
  const wait = () => browser.text('#wall-table td:nth-child(4)');
  await desk.stop();
  see('a lost desk is told within 5 s',
    Boolean(await until(async () => /^What you see is old/.test(await status()) && /\d old$/.test(await browser.text('#status-age')), 5)),
    await status());
  see('what is shown is grey within 15 s', Boolean(await until(old, 15)));
  const still = await wait();
  await browser.run(`window.told = [];
    for (const part of document.querySelectorAll('[role=alert], [role=status]')) {
      new MutationObserver(() => window.told.push(part.textContent)).observe(part, {childList: true, characterData: true, subtree: true});
    }`);
  await sleep(3500);
  see('nothing is read out each second', (await browser.run('return window.told')).length === 0,
    await browser.run('return window.told[0]'));
  see('the title says so', (await browser.run('return document.title')).startsWith('■ no desk – '),
    await browser.run('return document.title'));
  see('no wait goes on meanwhile', await wait() === still, `${still}, ${await wait()}`);
  await desk.serve();
  see('the board goes on by itself within 10 s', Boolean(await until(async () => await status() === 'Live' && !await old(), 10)),
    await status());
  await desk.post({requester: 'try', invoke: 200, service: 'arriveCall', caller: '0309999',
    called: (await desk.get('/snapshot')).groups[0].device});
  const {last} = await desk.get('/events?after=999999999999999');
  see('with what came since', Boolean(await until(() => browser.run(`return window.board.state().last >= ${last}`), 3)));
  await desk.stop();
  const file = desk.file;
  desk.file = other;
  await desk.serve();
  const {last: others} = await desk.get('/events?after=999999999999999');
  see('another file in its place is read anew',
    Boolean(await until(
      async () => await status() === 'Live'
        && await browser.run(`return window.board.counted() && window.board.state().last === ${others}`), 20)), await status());
  const report = reportLines(await desk.get('/reports/queues'));
  const shown = await browser.run(
    `return [...window.board.state().groups.values()].map(group =>
      [group.id, window.board.day().line(group.id).sum.entered, window.board.day().line(group.id).sum.answered])`);
  see('its figures are its own',
    report.every(line => shown.some(one => String(one) === String([line[0], line[3], line[4]]))) && shown.length === report.length,
    `${shown[0]}, ${report[0]}`);
  await desk.stop();
  desk.file = file;
  await desk.serve();
  await until(async () => await status() === 'Live', 20);
}
