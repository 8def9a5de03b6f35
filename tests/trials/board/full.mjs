// A desk of a full plan behind a long day: how soon a board is whole, how soon an event is on it, and what it costs.
import {execFileSync, spawn} from 'node:child_process';
import {sleep, until} from './browser.mjs';
import {live, people} from './page.mjs';

const load = () => Number(execFileSync('cut', ['-d', ' ', '-f', '1', '/proc/loadavg']).toString());

/** From the address to a board with the whole day, in milliseconds by the page's own clock. */
export async function opening(browser, address, view) {
  await browser.open('about:blank');
  await browser.open(`${address}?since=0#${view}`);
  if (!await live(browser)) return null;
  return browser.run(`return {live: performance.getEntriesByName("live")[0].startTime,
    whole: performance.getEntriesByName("counted")[0].startTime, events: window.board.state().last,
    agents: window.board.state().agents.size, groups: window.board.state().groups.size, calls: window.board.state().calls.size}`);
}

/** How long after a request was answered its event is drawn, at most. */
export async function delay(browser, desk, address, times) {
  await opening(browser, address, 'events');
  const waits = [], {device} = (await desk.get('/snapshot')).groups[0];
  for (let time = 0; time < times; time++) {
    await sleep(700 + 437 * time % 1000);
    const {result} = await desk.post({requester: 'try-delay', invoke: time + 1, service: 'arriveCall', caller: '0305', called: device});
    const begin = Date.now();
    const isTold = `return document.querySelector('#events-list').textContent.includes('Call ${result.call} ')`;
    if (!await until(() => browser.run(isTold), 10, 20)) return Infinity;
    waits.push(Date.now() - begin);
  }
  return Math.max(...waits);
}

/** The share of a core that the page's main thread takes in a view, and how many events a second came meanwhile. */
export async function mainThread(browser, address, view, seconds) {
  await opening(browser, address, view);
  await browser.command('Performance.enable');
  const metrics = async () =>
    Object.fromEntries((await browser.command('Performance.getMetrics')).metrics.map(({name, value}) => [name, value]));
  const last = () => browser.run('return window.board.state().last');
  await sleep(2000);
  const [before, first, begin] = [await metrics(), await last(), Date.now()];
  await sleep(1000 * seconds);
  const [after, end] = [await metrics(), await last()], passed = (Date.now() - begin) / 1000;
  return {share: (after.TaskDuration - before.TaskDuration) / passed, events: (end - first) / passed};
}

/** What boards cost a desk: its processor seconds a second, with as many streams and without. A login has eight at most. */
export async function followers(desk, front, boards, seconds) {
  const taken = async () => {
    const before = await desk.seconds();
    await sleep(1000 * seconds);
    return (await desk.seconds() - before) / seconds;
  };
  const without = await taken(), logins = ['sup', 'planner', 'pbx'];
  let bytes = 0;
  const streams = Array.from({length: boards}, (_, number) => {
    const stream = spawn('curl', ['-skN', '-u', `${logins[number % 3]}:secret`, `${front.address}/stream?begin=0`],
      {stdio: ['ignore', 'pipe', 'ignore']});
    stream.stdout.on('data', part => { bytes += part.length; });
    return stream;
  });
  await sleep(5000);
  bytes = 0;
  const share = await taken() - without;
  for (const stream of streams) stream.kill();
  return {share, without, bytes: bytes / boards / seconds};
}

/** So many of those who wait hang up, so that others may call. */
async function giveUp(desk, callers) {
  const waiting = (await desk.get('/snapshot')).calls.flatMap(({call, connections}) =>
    connections.filter(one => one.state === 'queued').map(({device}) => ({call, device})));
  for (const [number, members] of waiting.slice(-callers).entries()) {
    await desk.post({requester: 'try-full', invoke: number + 1, service: 'clearConnection', ...members});
  }
}

export async function full(see, browser, desk, front, figures) {
  const address = front.page('sup', '/board/');
  const first = await opening(browser, address, 'wall');
  see('the board of a full plan is whole', first !== null && first.agents === 1000 && first.groups === 64 && first.calls === 2000,
    JSON.stringify(first));
  if (!first) return;
  figures(`a whole board behind ${first.events} events`,
    `${(first.whole / 1000).toFixed(2)} s, live after ${(first.live / 1000).toFixed(2)} s`, first.whole < 2000, 'under 2 s', load());
  await giveUp(desk, 300);
  const folks = people(desk, 180);
  try {
    for (const view of ['wall', 'agents', 'calls']) {
      const {share, events} = await mainThread(browser, address, view, 15);
      see(`events come while ${view} is looked at`, events > 5, events);
      figures(`main thread, ${view}, ${events.toFixed(0)} events a second`, `${(100 * share).toFixed(1)} % of a core`, share < 0.1,
        'under 10 %', load());
    }
    // by now those who were on the phone at the begin don't all act at once, so that a sentence stays long enough to be seen
    const most = await delay(browser, desk, address, 8);
    figures('an event on the board', `${(most / 1000).toFixed(2)} s at most, of 8`, most < 1500, 'within 1.5 s', load());
    await browser.open('about:blank');
    const {share, without, bytes} = await followers(desk, front, 20, 15);
    see('each of twenty boards is told something', bytes > 100, bytes);
    figures(`twenty boards, ${Math.round(bytes)} bytes a second each`,
      `${(100 * share).toFixed(1)} % of the desk's time, which takes ${(100 * without).toFixed(1)} % without them`, share < 0.05,
      'under 5 %', load());
  } finally { await folks.end(); }
}
