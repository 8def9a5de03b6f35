// Ten tabs of a browser behind nginx without HTTP/2, where a browser has six connections; and the pages behind the nginx.conf of 1.14,
// which an office may keep.
import {until} from './browser.mjs';
import {logIn} from './session.mjs';
import {Hands, requested} from './shift.mjs';

// by the settings that ask for something else, and by views that show something else: nine boards of seven addresses
const BOARDS = ['#wall', '#queues', '#agents', '#day', '#events', '?limit=30#wall', '?limit=45#queues', '?groups=100#wall',
  '?groups=100,110#day'];
const SECONDS = 2, FEW = 4;
const DRAWN = `return document.querySelector("#status-text")?.textContent === "Live"
  && (window.agent ? window.agent.mine().agent.agent === "7" : window.board.counted() && window.board.state().groups.size === 4)`;
// how long the page waits for the answer to a request, whatever drives it
const TIMED = `const before = fetch;
window.fetch = async (address, how) => {
  const begin = performance.now(), reply = await before(address, how);
  if (String(address).endsWith('/csta')) window.took = performance.now() - begin;
  return reply;
}`;
const ASKED = `const begin = performance.now(), asked = fetch(location.origin + "/session", {cache: "no-store"});
  return Promise.race([asked.then(reply => reply.status === 200 && performance.now() - begin),
    new Promise(done => setTimeout(done, 20000))])`;

async function show(browser, tab) {
  await browser.ask('POST', '/window', {handle: tab});
  await browser.command('Page.bringToFront');
}

async function opened(browser, address) {
  const {handle} = await browser.ask('POST', '/window/new', {type: 'tab'});
  await show(browser, handle);
  await browser.open(address);
  return handle;
}

/** How many streams the gate has. */
const streams = async front => Number(/^acd_gate_streams (\d+)/m.exec((await front.ask('ana', '/metrics')).text)[1]);

/** Each tab draws its picture as it comes, and when it is shown again; and in each of them a request goes through. */
export async function tenTabs(see, browser, desk, front) {
  const hands = new Hands(see, browser, desk, front), own = await browser.ask('GET', '/window'), tabs = new Map([[own, 'the agent']]);
  await hands.open();
  for (const where of BOARDS) {
    const tab = await opened(browser, front.page('ana', `/board/${where}`));
    tabs.set(tab, where);
    see(`${where}, tab ${tabs.size}: it draws`, Boolean(await until(() => browser.run(DRAWN), 10)), await browser.text('#status'));
  }
  see('they come by HTTP/1.1', await browser.run('return performance.getEntriesByType("navigation")[0].nextHopProtocol') === 'http/1.1');
  see(`${FEW} streams are open`, Boolean(await until(async () => await streams(front) === FEW, 10)), await streams(front));
  await show(browser, own);
  see("the agent's page has its own", await browser.run(DRAWN), await browser.text('#status'));
  await browser.run(TIMED);
  await hands.logOn('100');
  const took = await browser.run('return window.took');
  see('a request beside nine other tabs', took && took < 1000 * SECONDS, took);
  await hands.click(requested('ready'), '✓ Ready');
  for (const [tab, where] of tabs) {
    await show(browser, tab);
    see(`${where}: it is live where it is shown`, Boolean(await until(() => browser.run(DRAWN), 10)), await browser.text('#status'));
    const took = await browser.run(ASKED);
    see(`${where}: a request goes through`, took && took < 1000 * SECONDS, took);
  }
  await show(browser, own);
  await hands.ask('setAgentState', {agent: '7', requested: 'notReady'});
  see('what happens comes to the page',
    Boolean(await until(() => browser.run('return window.agent.mine().agent.state === "notReady"'), SECONDS)),
    JSON.stringify(await hands.mine()));
  await gone(see, browser, front, [...tabs.keys()].slice(1));
  await show(browser, own);
  see("the agent's page stays", await browser.run(DRAWN), await browser.text('#status'));
}

/** Tabs that are closed have no stream any more. */
async function gone(see, browser, front, tabs) {
  for (const tab of tabs) {
    await browser.ask('POST', '/window', {handle: tab});
    await browser.ask('DELETE', '/window');
  }
  see('the streams of closed tabs end', Boolean(await until(async () => await streams(front) === 1, 15)), await streams(front));
}

/** Board and agent's page draw, and a session's end ends them, behind an nginx.conf that has no line for the stream. */
export async function olderConf(see, browser, desk, front) {
  const hands = new Hands(see, browser, desk, front), first = await browser.ask('GET', '/window');
  await logIn(hands, 'ana', '/board/agent/');
  see("the agent's page draws", Boolean(await until(() => browser.run(DRAWN), 10)), await browser.text('#status'));
  await hands.logOn('100');
  await hands.sees('and goes on', '#pending', 'at 207');
  const second = await opened(browser, `${front.address}/board/?since=0#agents`);
  see('the board draws', Boolean(await until(() => browser.run(DRAWN), 10)), await browser.text('#status'));
  await hands.ask('setAgentState', {agent: '7', requested: 'ready'});
  see('and goes on', Boolean(await until(() => browser.run('return window.board.state().agent("7").doing === "ready"'), 5)),
    await browser.text('#agents-list'));
  await show(browser, first);
  see('the page too', Boolean(await until(() => browser.run('return window.agent.mine().agent.state === "ready"'), 5)),
    JSON.stringify(await hands.mine()));
  await browser.run('return fetch(location.origin + "/logout", {method: "POST"}).then(reply => reply.status)');
  const where = () => browser.run('return location.pathname');
  see('without a session it is the log-in', Boolean(await until(async () => await where() === '/board/login/', 12)), await where());
  await browser.ask('POST', '/window', {handle: second});
  see('there too', Boolean(await until(async () => await where() === '/board/login/', 12)), await where());
}
