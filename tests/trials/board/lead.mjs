// What a lead does by the board: buttons where the own groups are, each behind a question, and what the desk makes of it.
import {join} from 'node:path';
import {sleep, until} from './browser.mjs';
import {live} from './page.mjs';
import {Story} from './story.mjs';
import {brackets, strange} from './words.mjs';

/** Three groups with an agent each: one is rung by a caller whom somebody sent there, one talks, in the third a call waits. */
export function office(now) {
  const story = new Story(now - 600, [['100', 'Billing'], ['101', 'Orders'], ['102', 'Returns']]);
  story.ask(now - 300, 'arriveCall', {caller: '0401', called: '101'});
  story.ask(now - 290, 'answerCall', {call: 1, device: '201'});
  story.ask(now - 200, 'setAgentState', {agent: '3', requested: 'notReady'});
  story.ask(now - 100, 'arriveCall', {caller: '0402', called: '102'});
  story.ask(now - 90, 'arriveCall', {caller: '0403', called: '102'});
  // who isn't of the lead's groups, and doesn't answer
  story.ask(now - 60, 'deflectCall', {call: 3, device: '102', to: '200'});
  return story.lines;
}

/** The rows with such a button, one click on it and perhaps a choice, and a double yes. */
function hands(browser) {
  const visible = selector =>
    browser.run(`return [...document.querySelectorAll(arguments[0])].filter(one => one.checkVisibility())
      .map(one => one.closest("[data-key]").dataset.key)`, selector);
  const ask = async (view, selector, chosen) => {
    await browser.run('location.hash = arguments[0]', view);
    await until(async () => (await visible(selector)).length, 5);
    await browser.click(selector);
    await sleep(200);
    if (chosen !== undefined) await browser.run('document.querySelector("#act select").value = arguments[0]', chosen);
  };
  return {visible, ask,
    yes: () => browser.run('const button = document.querySelector("#act [value=yes]"); button.click(); button.click();')};
}

/** With a table whose values are their keys each word of the questions, and of what is told behind them, is in brackets, or comes from the
 * desk. */
async function questions(see, browser, desk, front) {
  const {ask, yes} = hands(browser);
  const names = (await desk.get('/snapshot')).groups.map(group => group.name).concat('Agent 1', 'Agent 2', 'Agent 3');
  await brackets(join(front.file, 'share/board'));
  await browser.fresh(front.page('lea', '/board/?lang=zz&since=0#agents'));
  await live(browser);
  for (const [view, selector, key] of [['agents', '#agents-list [data-key="3"] [data-press=state]', 'act.state'],
    ['calls', '#calls-table [data-key="2"] [data-press=call]', 'act.move.sure'],
    ['calls', '#calls-table [data-key="1"] [data-press=call]', 'act.end.sure'],
    ['queues', '#queues-table [data-key="102"] [data-press=priority]', 'act.priority.sure']]) {
    await ask(view, selector);
    const {said, left} = await strange(browser, names);
    see(`the question ${key}: all words are of the table`,
      ['act.yes', 'act.no', key].every(one => said.some(text => text.includes(`[${one}]`))) && !left.length,
      left.slice(0, 3).join('; ') || key);
    await browser.press('\uE00C');
    await sleep(200);
  }
  // what the agent is already, so that nothing changes
  await ask('agents', '#agents-list [data-key="3"] [data-press=state]', 'notReady');
  await yes();
  see('and so is what is told behind it', await until(async () => await browser.text('#act-told') === '✓ [agent.button]', 5),
    await browser.text('#act-told'));
}

export async function lead(see, browser, desk, front) {
  const {visible} = hands(browser);
  await questions(see, browser, desk, front);
  const acts = {agents: '#agents-list [data-press=state]', calls: '#calls-table [data-press=call]',
    queues: '#queues-table [data-press=priority]'};
  const shown = async login => {
    const found = {};
    for (const [view, selector] of Object.entries(acts)) {
      await browser.fresh(front.page(login, `/board/?since=0#${view}`));
      await live(browser);
      await sleep(1200);
      found[view] = await visible(selector);
    }
    return JSON.stringify(found);
  };
  see('a supervisor has no button', await shown('sup') === '{"agents":[],"calls":[],"queues":[]}', await shown('sup'));
  see('a lead has those of the own groups', await shown('lea') === '{"agents":["2","3"],"calls":["2","3","1"],"queues":["101","102"]}',
    await shown('lea'));
  await chosen(see, browser, front);
  const {ask, yes} = hands(browser), agent = async id => (await desk.get(`/agents/${id}`)).state;
  await ask('agents', '#agents-list [data-key="3"] [data-press=state]', 'ready');
  await browser.press('\uE00C');
  await sleep(800);
  see('without a yes nothing is asked for',
    await agent('3') === 'notReady' && await browser.run('return !document.querySelector("#act").open'));
  await nobodys(see, browser, desk, {ask, yes});
  await ask('calls', '#calls-table [data-key="2"] [data-press=call]', '101');
  await yes();
  see('a waiting call is moved', await until(async () => (await desk.get('/calls/2')).connections.some(one => one.device === '101'), 5),
    JSON.stringify(await desk.get('/calls/2')));
  await ask('agents', '#agents-list [data-key="3"] [data-press=state]', 'ready');
  await yes();
  see('an agent is ready', await until(async () => await agent('3') === 'ready', 5), await agent('3'));
  see('and it is told', (await browser.text('#act-told')).startsWith('✓ '), await browser.text('#act-told'));
  await ask('calls', '#calls-table [data-key="1"] [data-press=call]');
  await yes();
  see('a call is ended', await until(() => desk.get('/calls/1').then(() => false, () => true), 5));
  await ask('queues', '#queues-table [data-key="102"] [data-press=priority]', '7');
  await yes();
  see('a group has another priority',
    await until(async () => (await desk.get('/snapshot')).groups.find(one => one.device === '102').priority === 7, 5));
  await ask('agents', '#agents-list [data-key="3"] [data-press=state]', 'loggedOff');
  await yes();
  see('an agent is logged off', await until(async () => await agent('3') === 'null', 5), await agent('3'));
  const before = (await desk.get('/events?after=999999999999999')).last;
  await browser.run(
    `import('./act.js').then(({lead}) => {
      lead.begin({login: 'lea', role: 'lead', groups: ['100']});
      lead.send('setGroupPriority', {device: '100', priority: 3}, 'Priority', 'Billing', '3');
    })`);
  see('beyond the own groups it is refused',
    await until(async () => /■ .*may not/.test(await browser.text('#act-told')), 5)
      && (await desk.get('/snapshot')).groups.find(one => one.device === '100').priority !== 3, await browser.text('#act-told'));
  see('and does nothing', (await desk.get('/events?after=999999999999999')).last === before);
}

/** A lead begins with the own groups; others are chosen by name, and all of them stand in the address. */
async function chosen(see, browser, front) {
  const rows = () => browser.run('return [...document.querySelectorAll("#queues-table tbody tr")].map(row => row.dataset.key)');
  const has = async wanted => until(async () => String(await rows()) === wanted, 5);
  await browser.fresh(front.page('lea', '/board/?since=0#queues'));
  await live(browser);
  see('a lead begins with the own groups', await has('101,102'), String(await rows()));
  await browser.click('#settings summary');
  await until(() => browser.find('#own-groups label'), 5);
  const boxes = await browser.run(
    'return [...document.querySelectorAll("#own-groups label")].map(one => `${one.querySelector("input").checked} ${one.textContent}`)');
  see('they are chosen by name', String(boxes) === 'false all groups,false Billing (100),true Orders (101),true Returns (102)',
    String(boxes));
  await browser.click('#own-groups [data-key="100"]');
  see('another one is chosen', await has('100,101,102') && (await browser.run('return location.search')).includes('groups=100,101,102'),
    String(await rows()));
  await browser.click('#own-groups [data-key="102"]');
  see('and one left out', await has('100,101'), String(await rows()));
  await browser.click('#own-groups [data-key="all"]');
  see('all groups', await has('100,101,102') && (await browser.run('return location.search')).includes('groups=all') && await live(browser),
    await browser.run('return location.search'));
  await browser.run('document.querySelector(\'#own-groups [data-key="101"] input\').focus()');
  await browser.press(' ');
  see('by a key too', await has('101'), String(await rows()));
  await browser.fresh(front.page('sup', '/board/?since=0#queues'));
  await live(browser);
  see('a supervisor begins with all', await has('100,101,102') && !(await browser.run('return location.search')).includes('groups'),
    String(await rows()));
  await browser.fresh(front.page('lea', '/board/?since=0#agents'));
  await live(browser);
}

/** A caller who was sent to an agent and isn't answered: on the board with the own group, moved after a question of who isn't ready, and
 * ended. */
async function nobodys(see, browser, desk, {ask, yes}) {
  const device = async () => (await desk.get('/calls/3')).connections.map(one => one.device).find(one => one !== '0403');
  await browser.run('location.hash = "calls"');
  const row = await until(async () => {
    const text = await browser.text('#calls-table [data-key="3"]');
    return text?.includes('Returns') && text;
  }, 5);
  see('its row has the group and whom it rings at', /ringing.*ReturnsAgent 10403/.test(row), row);
  see('it is counted as ringing', (await browser.text('#tiles')).includes('and 1 ringing'), await browser.text('#tiles'));
  const alarm = await browser.text('#alarm [data-key="sent.102"] b');
  see('it is an alarm', alarm === "■ Returns: Agent 1 doesn't answer a caller who was sent there", alarm);
  await ask('calls', '#calls-table [data-key="3"] [data-press=call]', '202');
  const [question, choice] = await browser.run(`return [document.querySelector("#act p").textContent,
    document.querySelector("#act select").selectedOptions[0].textContent.replace(/[\\u2068\\u2069]/g, "")]`);
  see('the question says who and where, and the choice what the agent does',
    question.includes('0403') && question.includes('Agent 1 (200)') && choice.includes('Agent 3 (202): ■ not ready'),
    `${question} ${choice}`);
  await browser.click('#act [value=yes]');
  await sleep(300);
  const again = await browser.text('#act p');
  see('who is not ready is asked about again',
    again.includes('Agent 3 (202): ■ not ready.') && await browser.run('return document.querySelector("#act").open'), again);
  see('and nothing is done before', await device() === '200', await device());
  await yes();
  see('then it rings there', await until(async () => await device() === '202', 5), await device());
  see('and the alarm is over',
    await until(async () => await browser.run('return !document.querySelector("#alarm [data-key=\'sent.102\']")'), 5));
  await ask('calls', '#calls-table [data-key="3"] [data-press=call]', '');
  await browser.click('#act [value=yes]');
  await sleep(300);
  see('a lead ends it', (await browser.text('#act p')).includes('cut off'), await browser.text('#act p'));
  await yes();
  see('it is gone', await until(() => desk.get('/calls/3').then(() => false, () => true), 5));
}

/** A browser's session: a form, a board, an end. */
export async function session(see, browser, front) {
  await browser.fresh(`${front.address}/board/?since=0&groups=101#queues`);
  see('without a session the page of log-in comes',
    await until(async () => (await browser.run('return location.pathname')) === '/board/login/', 10));
  await browser.run(`document.querySelector("[name=login]").value = "sup"; document.querySelector("[name=password]").value = "secret";
    document.querySelector("button").click()`);
  see('and goes on to where one was',
    await until(async () => await browser.run('return location.pathname + location.search') === '/board/?since=0&groups=101', 10),
    await browser.run('return location.href'));
  await live(browser);
  await until(() => browser.run('return document.querySelector("#log-off").checkVisibility()'), 10);
  await browser.run('document.body.click()');
  await browser.click('#log-off');
  see('Log off here ends it', await until(async () => (await browser.run('return location.pathname')) === '/board/login/', 10),
    await browser.run('return location.href'));
  see('for good', await browser.run('return fetch("/session").then(reply => reply.status)') === 401);
}
