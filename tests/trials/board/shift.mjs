// An agent's shift by clicks, what the events say of it, and what a login may not ask for.
import {createServer} from 'node:http';
import {freePort, sleep, until} from './browser.mjs';
import {contrast, unreached, untold} from './looks.mjs';
import {PHONE, SCREEN} from './page.mjs';

export const AGENT = '7', STATION = '207';
const GROUPS = ['110', '100'];

/** A plan for the shift: four groups, of which one rings briefly, three stations, two agents. */
export const PLAN = [
  {service: 'addGroup', device: '100', name: 'Billing', ring: 20, wrap: 30},
  {service: 'addGroup', device: '110', name: 'Claims', ring: 20, wrap: 30},
  {service: 'addGroup', device: '120', name: 'Orders', ring: 20, wrap: 30},
  {service: 'addStation', device: STATION}, {service: 'addStation', device: '208'}, {service: 'addStation', device: '209'},
  {service: 'addAgent', agent: AGENT, name: 'Ana Adler'}, {service: 'addAgent', agent: '8', name: 'Ben Berg'},
  {service: 'addGroup', device: '130', name: 'Quick', ring: 2, wrap: 12},
].map((request, number) => `0 ${JSON.stringify({requester: 'plan', invoke: number + 1, ...request})}`);

export const button = name => `#calls [data-service=${name}]:enabled:not([hidden])`;
export const requested = name => `#states [data-requested=${name}]:not([aria-disabled])`;

/** What the trials do with a page of the agent. */
export class Hands {
  constructor(see, browser, desk, front) {
    Object.assign(this, {see, browser, desk, front, requester: `try-${Math.random().toString(36).slice(2)}`, invoke: 0});
  }

  /** Straight at the desk. */
  ask(service, members) { return this.desk.post({requester: this.requester, invoke: ++this.invoke, service, ...members}); }
  async call(called = '110', caller = '0301234567') { return (await this.ask('arriveCall', {caller, called})).result.call; }
  said(words, seconds = 10) { return until(async () => (await this.browser.text('#told')).includes(words), seconds); }
  text(selector) { return this.browser.text(selector); }
  mine() { return this.browser.run('return window.agent?.mine()'); }
  shows(selector, words, seconds = 10) {
    return until(async () => words instanceof RegExp ? words.test(await this.text(selector)) : (await this.text(selector)).includes(words),
      seconds);
  }

  /** Sees that a text comes. */
  async sees(what, selector, words, seconds) {
    this.see(what, Boolean(await this.shows(selector, words, seconds)), await this.text(selector));
  }

  async open(words = '') {
    await this.browser.open(this.front.page('ana', `/board/agent/${words}`));
    return until(() => this.browser.run('return window.agent?.mine()?.live'), 20);
  }

  /** A question before a call is sent, and its yes. */
  async allTheSame(why, what) {
    await this.sees(`it is asked: ${why}`, '#notices', `${why}${what} all the sameNo`, 5);
    await this.click('#notices [data-key=ask] button');
  }

  /** Two clicks that follow one another by less are one to the page. */
  async click(selector, words) {
    await sleep(450);
    this.see(`the button ${selector}`, Boolean(await until(() => this.browser.click(selector).then(() => true), 10)));
    if (words) this.see(`it is said: ${words}`, Boolean(await this.said(words)), await this.text('#told'));
  }

  async logOn(...groups) {
    await this.browser.run(`document.querySelector('[name=station]').value = '${STATION}';
      for (const box of document.querySelectorAll('#groups input')) {
        if (box.checked !== arguments[0].includes(box.value)) box.click();
      }`, groups);
    await this.click('#log-on-button:enabled', `✓ Log on at ${STATION}`);
  }

  /** What the desk's events say of the agent and the station. */
  async events(after = 0) {
    return (await this.desk.events(after)).filter(event => event.agent === AGENT || event.device === STATION)
      .map(event => `${event.event} ${event.call ?? ''}`.trim());
  }

  async last() { return (await this.desk.get('/events?after=999999999999999')).last; }
}

/** The shift: what is clicked, and the events of the agent or the station that have to come of it, in their order. */
export async function shift(hands, folder) {
  const {see, browser} = hands;
  await hands.open();
  see('the page of who is logged in', await hands.text('#name') === `Ana Adler (${AGENT})`, await hands.text('#name'));
  see('nothing but to log on',
    await browser.run(`return document.querySelector("#states").hidden && !document.querySelector("#log-on").hidden
      && document.querySelector("#again").hidden`));
  await hands.logOn(...GROUPS);
  await hands.click(requested('ready'), '✓ Ready');
  const first = await hands.call();
  await hands.sees('what rings, for how long and from where', '#calls li',
    /ringing 0:0\d · Claims0301234567has waited 0:0\d · rings for another 0:[12]\d · call 1Answer F2Not now/);
  await looks(see, browser, folder);
  await hands.click(button('answerCall'), '✓ Answer: 0301234567');
  await hands.click(button('holdCall'), '✓ Hold: 0301234567');
  await hands.click(button('retrieveCall'), '✓ Retrieve: 0301234567');
  await browser.run('document.querySelector("#calls input").value = "120"');
  await hands.click(button('singleStepTransfer'));
  await hands.allTheSame('Nobody is logged on for Orders (120).', 'Transfer');
  see('it is said: Transfer', Boolean(await hands.said('✓ Transfer: 0301234567, to Orders (120)')), await hands.text('#told'));
  await hands.sees('after-call work ends by itself, and when', '#pending', /^ready in 0:(2\d|30) · at 207$/);
  await hands.click(requested('ready'), '✓ Ready');
  const second = await hands.call();
  await until(() => browser.find(button('deflectCall')), 10);
  await browser.run('document.querySelector("#calls input").value = "orders"');
  await hands.click(button('deflectCall'));
  await hands.allTheSame('Nobody is logged on for Orders (120).', 'Pass on');
  see('it is said: Pass on', Boolean(await hands.said('✓ Pass on: 0301234567, to Orders (120)')), await hands.text('#told'));
  const own = await hands.call(STATION), third = await ending(hands, own);
  await hands.click(button('answerCall'), '✓ Answer: 0301234567');
  see('one that was answered is hung up', String(await ends(third, browser, 'connected')) === 'Hang up',
    String(await ends(third, browser, 'connected')));
  await hands.click(requested('loggedOff'), '✓ Log off');
  await hands.sees('what is pending is shown', '#pending', 'logs off after this call', 5);
  await hands.click(button('clearConnection'), '✓ Hang up: 0301234567');
  see('the agent is logged off behind it', Boolean(await until(() => browser.run('return !document.querySelector("#log-on").hidden'), 10)));
  const mine = await hands.events();
  const wanted = ['agentLoggedOn', 'agentReady', `delivered ${first}`, `established ${first}`, 'agentBusy', `held ${first}`,
    `retrieved ${first}`, `transferred ${first}`, 'agentWorkingAfterCall', 'agentReady',
    `delivered ${second}`, `diverted ${second}`, `delivered ${own}`, `diverted ${own}`, `delivered ${third}`, `diverted ${third}`,
    'agentNotReady', 'agentReady', `delivered ${third}`, `established ${third}`, 'agentBusy', `connectionCleared ${third}`,
    'agentLoggedOff'];
  see('the events are what the buttons said', String(mine) === String(wanted), `${mine}`);
}

/** What ends a call that rings: nothing ends one of a caller from outside but the caller; one of a group waits in its queue then. */
async function ending(hands, own) {
  const {see, browser} = hands;
  see('a caller from outside is not hung up', String(await ends(own, browser)) === '', String(await ends(own, browser)));
  await browser.run('document.querySelector("#calls input").value = "orders"');
  await hands.click(button('deflectCall'));
  await hands.allTheSame('Nobody is logged on for Orders (120).', 'Pass on');
  await hands.said('✓ Pass on: 0301234567');
  const third = await hands.call();
  see('a call of a group is rejected', String(await ends(third, browser)) === 'Not now F8', String(await ends(third, browser)));
  await hands.click(button('rejectCall'), '✓ Not now: 0301234567');
  see('and waits in its queue', Boolean(await until(async () => {
    const {calls, groups} = await hands.mine();
    return !calls.length && groups.find(group => group.device === '110').calls.length === 1;
  }, 10)));
  see('nobody is told of an offer that was refused', (await hands.text('#notices')) === '', await hands.text('#notices'));
  await hands.click(requested('ready'), '✓ Ready');
  return third;
}

/** The buttons that end a call at the own side, where it has come to this state. */
async function ends(call, browser, state = 'alerting') {
  await until(() =>
    browser.run(`return window.agent.mine().calls.some(one => one.call === ${call})
      && document.querySelector('#calls [data-state=${state}]') !== null`), 10);
  return browser.run(
    `return [...document.querySelectorAll('#calls [data-service=clearConnection], #calls [data-service=rejectCall]')].filter(button =>
      button.checkVisibility()).map(button => button.textContent)`);
}

async function looks(see, browser, folder) {
  for (const theme of ['dark', 'light']) {
    await browser.run(`document.documentElement.dataset.theme = '${theme}'`);
    const {low, least, sideways} = await contrast(browser);
    see(`the agent's page, ${theme}: contrast at least ${least.toFixed(2)}`, !low.length && !sideways, low[0]);
    await browser.picture(`${folder}/agent-${theme}.png`);
  }
  const sizes = await browser.run(
    `return ['.number', '.line', '.soft'].map(part => parseFloat(getComputedStyle(document.querySelector('#calls ' + part)).fontSize))`);
  see('who calls is the largest text of the page', sizes[0] >= 48 && sizes[0] > 2 * sizes[1] && sizes[1] > sizes[2], String(sizes));
  await browser.size(...PHONE);
  see("the agent's page: no sideways scrolling on a phone", !(await contrast(browser)).sideways);
  await browser.picture(`${folder}/agent-phone.png`);
  await browser.size(...SCREEN);
  const unseen = await unreached(browser), silent = await untold(browser, ['heading', 'main', 'status', 'list', 'table']);
  see("the agent's page: every control by keyboard", !unseen.length, unseen[0]);
  see("the agent's page: nothing without a name", !silent.length, silent[0]);
}

/** What may not be asked for: by an agent, a supervisor, and a page of another site. */
export async function refused(see, browser, desk, front) {
  const forbidden = '{"error":{"code":41,"name":"forbidden"}}', before = (await desk.get('/snapshot')).groups.length;
  const ask = async (login, request, ...more) => front.ask(login, '/csta', {requester: `${login}-try`, invoke: 1, ...request}, ...more);
  for (const [login, request] of [['ana', {service: 'addGroup', device: '999', name: 'No', ring: 1, wrap: 1}],
    ['ana', {service: 'setAgentState', agent: '8', requested: 'loggedOn', device: '208', group: '100'}],
    ['ana', {service: 'holdCall', call: 1, device: '208'}], ['ana', {service: 'rejectCall', call: 1, device: '208'}],
    ['ana', {service: 'changeAgent', agent: '7', name: 'Ana'}],
    ['ana', {service: 'changeGroup', device: '100', name: 'No', ring: 1, wrap: 1}],
    ['planner', {service: 'rejectCall', call: 1, device: '208'}],
    ['ana', {service: 'arriveCall', caller: '1', called: '100'}], ['sup', {service: 'tick'}],
    ['sup', {service: 'setAgentState', agent: '7', requested: 'ready'}],
    ['planner', {service: 'arriveCall', caller: '1', called: '100'}],
    ['ana', {requester: 'clock', service: 'setAgentState', agent: '7', requested: 'ready'}],
    ['pbx', {requester: 'ana-try', service: 'tick'}]]) {
    const {status, text} = await ask(login, request);
    see(`${login} may not ask for ${request.service}`, status === 403 && text === forbidden, `${status} ${text}`);
  }
  for (const [place, request] of [{service: 'addStation', device: '210'},
    {service: 'changeGroup', device: '120', name: 'Orders', ring: 25, wrap: 30},
    {service: 'changeAgent', agent: '8', name: 'Ben B. Berg'}].entries()) {
    const granted = await ask('planner', {invoke: 1 + place, ...request});
    see(`the office asks for ${request.service}`, granted.status === 200, granted.text);
  }
  see('who has no password reads nothing', (await front.ask('nobody', '/snapshot')).text === '{"error":{"code":42,"name":"unauthorized"}}');
  for (const path of ['/events', '/csta/', '//snapshot']) {
    see(`no service by ${path}`, (await front.ask('pbx', path, {requester: 'pbx-x', invoke: 1, service: 'tick'})).status === 403);
  }
  await elsewhere(see, browser, front, desk);
  see('nothing of this was executed', (await desk.get('/snapshot')).groups.length === before);
}

/** A page of another site that sends a request with the password of who is logged in. */
async function elsewhere(see, browser, front, desk) {
  const port = await freePort(), server = createServer((_, reply) => {
    reply.setHeader('content-type', 'text/html');
    reply.end('<!doctype html><title>elsewhere</title>');
  });
  await new Promise(done => server.listen(port, '127.0.0.1', done));
  await browser.open(front.page('pbx', '/who'));   // now the browser knows the password of one who may all
  const body = invoke => JSON.stringify({requester: 'pbx-elsewhere', invoke, service: 'arriveCall', caller: '0666', called: '100'});
  const {last} = await desk.get('/events?after=999999999999999');
  const own = await browser.run(`return fetch(location.origin + '/csta', {method: 'POST', body: arguments[0]}).then(reply => reply.status)`,
    body(1));
  see('the own page of that login is answered', own === 200, own);
  for (const [number, host] of ['127.0.0.1', 'localhost'].entries()) {
    await browser.open(`http://${host}:${port}/`);
    await browser.run(
      `return fetch('${front.address}/csta', {method: 'POST', mode: 'no-cors', credentials: 'include', body: arguments[0]})
        .then(reply => reply.type, error => String(error))`, body(2 + number));
  }
  await sleep(300);
  const calls = (await desk.events(last)).filter(event => event.event === 'queued').length;
  see('a page of another site is not', calls === 1, calls);
  const answered = await front.ask('pbx', '/csta', body(2), '-H', 'Origin: http://localhost');
  see('by its Origin', answered.status === 403, answered.text);
  server.close();
}
