// Requests without an answer: sent again within a minute and in the same log-on, else asked about.
import {sleep, until} from './browser.mjs';
import {AGENT, requested, STATION} from './shift.mjs';

const left = browser =>
  browser.run(`return Object.keys(localStorage).filter(place => place.startsWith('acd-unanswered-${AGENT} '))
    .map(place => JSON.parse(localStorage[place]).body)`);
const requester = browser => until(() => browser.run('return window.agent?.requests()?.requester'), 20);

/** Clicks one of the two buttons of a question. */
const answer = (browser, words, sends) =>
  browser.run(`const line = [...document.querySelectorAll('#notices [data-key^=kept]')]
      .find(line => line.textContent.startsWith(arguments[0]));
    line.querySelectorAll('button')[arguments[1]].click()`, words, sends ? 0 : 1);

/** Puts requests into the browser as a page keeps them: [requester, requested, words, seconds ago, log-on]. */
const KEEP = 'for (const [place, one] of arguments[0]) localStorage.setItem(place, JSON.stringify(one))';
const keep = (browser, kept) => browser.run(KEEP, kept.map(([owner, wanted, words, ago, logOn], number) => {
  const at = ago === null ? undefined : Date.now() - 1000 * ago;
  const body = JSON.stringify({requester: owner, invoke: 1, service: 'setAgentState', agent: AGENT, requested: wanted});
  return [`acd-unanswered-${AGENT} ${1700000000000 + number} ${owner} 1`, {body, words, at, logOn, key: wanted}];
}));

/** A request whose reply is lost: it is told, kept over a new load of the page, and executed once. */
export async function lostReply(hands) {
  const {see, browser, desk, front} = hands;
  await hands.open();
  await until(() => browser.find(requested('workingAfterCall')), 20);
  const last = await hands.last();
  // clicked before the gate tells that the desk hangs
  desk.child.kill('SIGSTOP');
  await browser.click(requested('workingAfterCall'));
  see('a request without an answer is said to be sent again',
    Boolean(await until(async () => /no answer yet/.test(await hands.text('#told')), 20)), await hands.text('#told'));
  const before = await left(browser);
  see('it is kept in the browser', before.length === 1 && before[0].includes('workingAfterCall'), String(before));
  await browser.open(front.page('ana', '/board/agent/'));
  see('over a new load', String(await left(browser)) === String(before));
  desk.child.kill('SIGCONT');
  see('it is answered then',
    Boolean(await until(async () => (await left(browser)).length === 0 && /✓ After-call work/.test(await hands.text('#told')), 30)),
    await hands.text('#told'));
  see('and was executed once', String(await hands.events(last)) === 'agentWorkingAfterCall', String(await hands.events(last)));
  const [old, own] = [JSON.parse(before[0]).requester, await requester(browser)];
  see('a new load has a requester of its own, which is the login\'s',
    [old, own].every(one => /^ana-[a-f0-9]{16}$/.test(one)) && own !== old, `${old} ${own}`);
}

/** What was kept for more than a minute isn't sent, but asked about; what nobody wants is let go. */
export async function tooOld(hands) {
  const {see, browser} = hands, {agent} = await hands.mine(), last = await hands.last();
  await keep(browser,
    [['ana-aaaaaaaaaaaaaaaa', 'ready', 'Ready', 120, agent.logOn], ['ana-bbbbbbbbbbbbbbbb', 'notReady', 'Not ready', 10, agent.logOn],
      ['ana-cccccccccccccccc', 'loggedOff', 'Log off', -600, agent.logOn]]);
  await hands.open();
  await hands.sees('an old one is asked about', '#notices',
    /Ready: you asked for this at \d\d:\d\d:\d\d, and no answer came\.Ask againForget it/);
  await hands.sees('and so is one of a later time', '#notices', /Log off: you asked for this/);
  await until(async () => (await hands.events(last)).length, 5);
  await sleep(2500);
  see('one of ten seconds ago was sent alone', String(await hands.events(last)) === 'agentNotReady' && (await left(browser)).length === 2,
    `${await hands.events(last)}, ${await left(browser)}`);
  await answer(browser, 'Log off', false);
  await sleep(450);
  await answer(browser, 'Ready', true);
  see('who wants it still sends it', Boolean(await until(async () => String(await hands.events(last)) === 'agentNotReady,agentReady', 5)),
    String(await hands.events(last)));
  const isOver = async () => (await left(browser)).length === 0 && !/you asked/.test(await hands.text('#notices'));
  see('and nothing is kept any more', Boolean(await until(isOver, 5)), String(await left(browser)));
  await expires(hands);
}

/** The same within one load of the page: a minute passes while the server can't be reached. */
async function expires(hands) {
  const {see, browser} = hands, last = await hands.last();
  await browser.run(`window.real = [fetch, Date.now];
    window.fetch = (address, how) => how?.method === 'POST' ? Promise.reject(new TypeError('none')) : window.real[0](address, how)`);
  await hands.click(requested('notReady'));
  await hands.said('no answer yet');
  await browser.run('Date.now = () => window.real[1].call(Date) + 61000');
  await hands.sees('behind a minute it is asked about', '#notices', 'Not ready: you asked for this', 15);
  await browser.run('window.fetch = window.real[0]; Date.now = window.real[1]');
  await sleep(3000);
  see('and not sent by itself', (await hands.events(last)).length === 0, String(await hands.events(last)));
  await answer(browser, 'Not ready', false);
}

/** What was clicked in another log-on isn't sent, though it is no minute old: within one load, and over a new one. */
export async function otherLogOn(hands) {
  const {see, browser} = hands, again = async () => {
    for (const more of [{requested: 'loggedOff'}, {requested: 'loggedOn', device: STATION, groups: ['100', '110']}]) {
      await hands.ask('setAgentState', {agent: AGENT, ...more});
    }
  };
  await browser.run(`window.real = fetch;
    window.fetch = (address, how) => how?.method === 'POST' ? Promise.reject(new TypeError('none')) : window.real(address, how)`);
  await until(() => browser.find(requested('notReady')), 10);
  await hands.click(requested('workingAfterCall'));
  await hands.said('no answer yet');
  await again();
  const last = await hands.last();
  await hands.sees('of another log-on it is asked about', '#notices', 'After-call work: you asked for this', 10);
  await browser.run('window.fetch = window.real');
  const before = (await hands.mine()).agent.logOn;
  await again();
  await keep(browser, [['ana-dddddddddddddddd', 'ready', 'Ready', 5, before]]);
  await hands.open();
  await hands.sees('over a new load too', '#notices',
    /After-call work: you asked for this.*Ready: you asked for this|Ready: you asked for this.*After-call work: you asked/, 10);
  await sleep(2500);
  see('nothing of it was sent', String(await hands.events(last)) === 'agentLoggedOff,agentLoggedOn', String(await hands.events(last)));
  await browser.run(`for (const button of [...document.querySelectorAll('#notices [data-key^=kept] button:last-child')]) button.click()`);
}

/** What an older page kept: it is asked about, and under a requester that isn't the login's it is told and let go. */
export async function olderPage(hands) {
  const {see, browser} = hands, last = await hands.last(), {agent} = await hands.mine();
  await keep(browser,
    [['agent7-abcdefghijklmnop', 'ready', 'Ready, of an older page', 1, agent.logOn],
      ['ana-eeeeeeeeeeeeeeee', 'workingAfterCall', 'After-call work, kept', null, undefined]]);
  await hands.open();
  await hands.sees('what an older page kept is told', '#notices',
    'Ready, of an older page: an older page asked for this. It is not sent again', 20);
  await hands.sees('one without a time is asked about', '#notices', 'After-call work, kept: you asked for this', 5);
  see('neither was done', (await hands.events(last)).length === 0, String(await hands.events(last)));
  await answer(browser, 'After-call work, kept', true);
  see('but by a click', Boolean(await until(async () => String(await hands.events(last)) === 'agentWorkingAfterCall', 5)),
    String(await hands.events(last)));
  // the page has its answer a moment after the desk's event
  see('and nothing is kept any more', Boolean(await until(async () => (await left(browser)).length === 0, 5)), String(await left(browser)));
  await hands.open();
  await sleep(1000);
  await hands.sees('it is told once', '#notices', /^(Click here once.*)?$/, 3);
  await hands.click(requested('loggedOff'), '✓ Log off');
}
