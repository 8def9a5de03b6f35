// The agent's page over a server of its own: whose it is, its words by a table of keys, and its layout with long names and in all widths.
import {createServer} from 'node:http';
import {readFile} from 'node:fs/promises';
import {extname, join} from 'node:path';
import {freePort, sleep, until} from './browser.mjs';
import {TOP} from './desk.mjs';
import {contrast} from './looks.mjs';
import {AGENT, STATION} from './shift.mjs';
import {tableOf} from './words.mjs';

const TYPES = {'.html': 'text/html', '.js': 'text/javascript', '.css': 'text/css', '.json': 'application/json'};
const text = body => typeof body === 'string' ? body : JSON.stringify(body);

/** The pages by one server, without a password; `answers` has paths that are answered otherwise, all others go to the desk. `stream`
 * answers what the page is told. */
async function plain(desk, answers, stream) {
  const port = await freePort();
  const answer = async (request, reply) => {
    if (request.url.startsWith('/stream?')) return stream(request, reply);
    const path = request.url.split('?')[0], told = answers[path] && await answers[path](request.url);
    if (told) return reply.writeHead(told[0], {'content-type': TYPES[extname(path)] ?? 'application/json'}).end(text(told[1]));
    if (path === '/board/board.json') return reply.writeHead(200, {'content-type': 'application/json'}).end('{}');
    if (path.startsWith('/board/')) {
      return reply.setHeader('content-type', TYPES[extname(path)] ?? 'text/html')
        .end(await readFile(join(TOP, path.endsWith('/') ? `${path}index.html` : path)));
    }
    const parts = [];
    for await (const part of request) parts.push(part);
    const [status, body] = await fetch(`http://127.0.0.1:${desk.port}${request.url}`,
      parts.length ? {method: 'POST', body: Buffer.concat(parts)} : {}).then(async told => [told.status, await told.text()]);
    reply.writeHead(status, {'content-type': 'application/json'}).end(body);
  };
  const server = createServer((request, reply) => answer(request, reply).catch(() => reply.destroy()));
  await new Promise(done => server.listen(port, '127.0.0.1', done));
  return {page: words => `http://127.0.0.1:${port}/board/agent/${words}`, end: () => { server.closeAllConnections(); server.close(); }};
}

const told = body => [200, body];
/** The gate's own stream, asked for as somebody who reads all. */
const asGate = front => async (request, reply) => {
  const leaving = new AbortController();
  const from = await fetch(`http://127.0.0.1:${front.gate}${request.url}`, {headers: {'x-login': 'sup'}, signal: leaving.signal});
  reply.on('close', () => leaving.abort());
  reply.writeHead(from.status, {'content-type': from.headers.get('content-type')});
  for await (const part of from.body) reply.write(part);
  reply.end();
};

/** Whose a page's requester is, for which a gate is asked until it answers; and what a login sees that is no agent's. */
export async function owners({see, browser, desk, front, text: shown, ...hands}) {
  const none = [404, '{"error":{"code":35,"name":"notFound"}}'], late = [502, '{"error":{"code":44,"name":"badGateway"}}'];
  const said = () => browser.text('#told'), stream = asGate(front);
  const requester = () => until(() => browser.run('return window.agent?.requests()?.requester'), 20);
  let asked = 0;
  for (const [what, who, words, wanted] of [
    ['a gate', () => told({agent: '8', login: 'abcdefghijklmno', role: 'agent'}), '?', /^abcdefghijklmno-[a-f0-9]{16}$/],
    ['an exchange, and an agent in the address', () => told({login: 'pbx', role: 'exchange'}), '?agent=8&', /^pbx-[a-f0-9]{16}$/],
    ['a gate that is late', () => ++asked < 3 ? late : told({agent: '8', login: 'ben', role: 'agent'}), '?', /^ben-[a-f0-9]{16}$/],
  ]) {
    const server = await plain(desk, {'/session': who}, stream);
    await browser.open(server.page(`${words}station=208&groups=100`));
    if (what.endsWith('late')) {
      see(`${what} is told`, Boolean(await until(async () => await said() === '▲ Who is logged in? the gate does not run', 10)),
        await said());
    }
    const found = await requester();
    see(`the requester with ${what}`, wanted.test(found), found);
    await until(() => browser.find('#log-on-button:enabled'), 20);
    await sleep(450);
    await browser.click('#log-on-button');
    see(`the desk takes it, with ${what}`, Boolean(await until(async () => (await said()).includes('✓ Log on'), 10)), await said());
    await desk.post({requester: `try-owners-${what.length}`, invoke: 1, service: 'setAgentState', agent: '8', requested: 'loggedOff'});
    server.end();
  }
  for (const [what, who, words, wanted] of [
    ['who may only read', told({login: 'Ana', why: 'it only reads'}), '?agent=8', ['#told', '■ Ana: it only reads']],
    ['no gate', none, '?agent=8', ['#told', '■ This page asks the gate, and there is none here']],
    ['a login without an agent', told({login: 'sup', role: 'supervisor'}), '',
      ['#notices', 'The login sup has no agent of its own.The board']],
    ['who looks at another', told({login: 'sup', role: 'supervisor'}), '?agent=8',
      ['#notices', 'The login sup looks at agent 8 here, and asks for nothing.']],
  ]) {
    const server = await plain(desk, {'/session': () => who}, stream);
    await browser.open(server.page(words));
    see(`${what} is told`, Boolean(await until(async () => (await browser.text(wanted[0])) === wanted[1], 10)),
      await browser.text(wanted[0]));
    if (what.startsWith('who looks')) await until(() => browser.run('return window.agent.mine()'), 10);
    const offered = await browser.run(`return [...document.querySelectorAll("button, input")].filter(one => one.checkVisibility())
      .map(one => one.outerHTML)`);
    see(`and nothing is offered to ${what}`, !offered.length, offered[0]);
    server.end();
  }
}

const NOW = () => Math.floor(Date.now() / 1000);
const NAMES = {agents: [[AGENT, 'Ana', STATION], ['8', 'Ben', '208'], ['9', 'Cem']], groups: [['100', 'Billing'], ['130', 'Quick']],
  stations: [STATION, '208', '209']};
const GROUP = {calls: [{call: 9, caller: '...678', queued: 0}], device: '100', loggedOn: 2, name: 'Billing', ready: 1, ring: 20, wrap: 30};
const DAY = {answered: 2, begins: 0,
  calls: [{call: 3, caller: '0301', group: '100', moment: 1e9, talked: 61}, {call: 4, moment: 1e9, talked: 5}], missed: 1, talking: 100};

/** States of the page, as a gate tells them: each member goes over what stands here. */
function states() {
  const now = NOW(), agent = {agent: AGENT, device: STATION, groups: ['100'], logOn: 5, name: 'Ana', since: now - 5, state: 'ready'};
  const side = (state, more) => ({device: STATION, since: now - 5, state, ...more});
  const call = (number, connection, more) =>
    ({call: number, called: '100', caller: '0301234', connections: [connection], queued: now - 60, since: now - 90, ...more});
  return {
    'logged off': {agent: {agent: AGENT, name: 'Ana', since: 0, state: 'null'}, calls: []},
    'not planned': {agent: {agent: AGENT}, calls: [], groups: []},
    'ringing': {agent, calls: [call(1, side('alerting', {group: '100'}))]},
    'talking, with another held': {agent: {...agent, state: 'busy', pending: 'loggedOff'},
      calls: [call(1, side('connected', {group: '100'})), call(2, side('hold'), {caller: STATION, called: '208'})]},
    'dialling': {agent: {...agent, state: 'notReady'}, calls: [call(1, side('initiated'), {caller: STATION, called: '208'})],
      missed: {call: 7, caller: '040', group: '100', moment: now, since: now - 20}},
    'missed before': {agent, calls: [call(1, side('fail'))], missed: {call: 7, moment: now, since: now - 20}},
    'after-call work': {agent: {...agent, state: 'workingAfterCall'}, calls: []},
    'overdue': {agent: {...agent, state: 'workingAfterCall', since: now - 90}, calls: []},
  };
}

/** What the agent does in such a state, as the gate tells it. */
function doingOf({agent: {state = 'null', since = 0}, calls = []}) {
  const here = calls.flatMap(({connections}) => connections), given = here.find(({group}) => group);
  if (given) return {doing: {alerting: 'ringing', hold: 'hold'}[given.state] ?? 'busy', since: given.since, group: given.group};
  return {doing: state === 'ready' && here.some(one => one.state !== 'fail') ? 'own' : state, since, group: null};
}

/** A server that tells one state until `mine` is another one: a new picture, three times a second. */
async function shown(desk, state, more = {}) {
  const server = {mine: state, number: 1};
  const stream = async (request, reply) => {
    reply.writeHead(200, {'content-type': 'text/event-stream'});
    for (; !reply.destroyed; await sleep(300)) {
      const {groups = [GROUP], ...mine} = {day: DAY, missed: null, names: NAMES, ...server.mine};
      const picture = {answered: NOW(), clock: Date.now() / 1000, live: true, doing: doingOf({agent: {}, ...mine}),
        queues: groups.map(({device}) => device), groups: Object.fromEntries(groups.map(group => [group.device, group])), ...mine};
      if (mine.agent) reply.write(`event: picture\nid: 1-0-${++server.number}\ndata: ${JSON.stringify(picture)}\n\n`);
    }
  };
  return Object.assign(server,
    await plain(desk, {'/session': () => told({agent: AGENT, begun: 1, login: 'ana', role: 'agent'}), ...more}, stream));
}

/** All that a page says, in each text, title and label; runs in the page. */
const SAID = `const walk = document.createTreeWalker(document.body, NodeFilter.SHOW_TEXT), found = [document.title];
  while (walk.nextNode()) if (!walk.currentNode.parentElement.closest('noscript')) found.push(walk.currentNode.textContent.trim());
  for (const name of ['title', 'aria-label', 'placeholder']) {
    for (const element of document.querySelectorAll('[' + name + ']')) found.push(element.getAttribute(name));
  }
  return found.filter(Boolean)`;

/** With a table whose values are their keys each word of the page is in brackets, or comes from the desk; and German has each key. */
export async function words({see, browser, desk}) {
  const [table, german] = await Promise.all(['words.js', 'words/de.js'].map(file => tableOf(join(TOP, 'board', file))));
  const keys = Object.keys(table), bracketed = Object.fromEntries(keys.map(key => [key, `[${key}]`]));
  const own = keys.filter(key => /^(agent|login)\./.test(key));
  const holes = said => [...new Set(JSON.stringify(said).match(/\{\w+\}/g))].sort().join();
  const differ = own.filter(key => !german[key] || holes(german[key]) !== holes(table[key]));
  see(`German has each of ${own.length} words, with the same values`, own.length > 60 && !differ.length, differ[0]);
  const server = await shown(desk, {}, {'/board/words/zz.js': () => told(`export default ${JSON.stringify(bracketed)};`)});
  const said = new Set();
  for (const what of Object.keys(states())) {
    server.mine = states()[what];
    await browser.open(server.page('?lang=zz'));
    await until(() => browser.run('return window.agent?.mine()?.agent'), 10);
    await sleep(500);
    const found = await browser.run(SAID);
    const strange = found.filter(one =>
      /\p{L}/u.test(one.replace(/\[[\w.]+\]/g, '').replace(/Ana|Ben|Cem|Billing|Quick|F2|F8|UTC|GMT|AM|PM/g, '')));
    see(`each word of the page has a key: ${what}`, found.length > 20 && !strange.length, strange[0]);
    for (const one of found) for (const [key] of one.matchAll(/\[[\w.]+\]/g)) said.add(key.slice(1, -1));
  }
  const never = own.filter(key => key.startsWith('agent.') && !said.has(key));
  const others = never.map(key => key.slice(6)).join(', ');
  console.log(`    ${said.size} words of the page were seen as keys; these weren't in those states: ${others}`);
  server.end();
}

/** Names of forty letters without a blank, and from right to left; widths from 320 to 4,000 pixels, and 400 % of zoom, which is a quarter
 * of the width. */
export async function layout({see, browser, desk}, folder) {
  const long = 'Versicherungsangelegenheitensachbearbeit';
  const office = {names: {groups: {100: long, 130: 'שירות לקוחות'}, agents: {7: 'محمد عبد الله', 8: long}}};
  const server = await shown(desk, {}, {'/board/board.json': () => told(office)});
  for (const what of Object.keys(states())) {
    server.mine = states()[what];
    await browser.open(server.page(''));
    await until(() => browser.run('return window.agent?.mine()?.agent'), 10);
    for (const width of [320, 390, 768, 1366, 1920, 4000]) {
      await browser.size(width, width < 400 ? 256 : 768);
      await sleep(150);
      const {sideways, low} = await contrast(browser);
      see(`${what}: ${width} pixels wide`, !sideways && !low.length, low[0]);
      if (['ringing', 'logged off', 'talking, with another held', 'dialling'].includes(what) && [320, 1366].includes(width)) {
        await browser.picture(`${folder}/agent-${what.replace(/\W+/g, '-')}-${width}.png`);
      }
    }
    const cut = await browser.run(`return [...document.querySelectorAll('main button, main input')].filter(one => one.checkVisibility())
      .filter(one => {
        const box = one.getBoundingClientRect();
        return box.left < 0 || box.right > innerWidth + 1;
      }).map(one => one.outerHTML)`);
    see(`${what}: no control is cut off`, !cut.length, cut[0]);
  }
  const isolated = await browser.run(`return ['#name', '#queues tbody'].map(part => document.querySelector(part + ' bdi') !== null)`);
  see('names are isolated', isolated.every(Boolean), String(isolated));
  await browser.command('Emulation.setEmulatedMedia', {features: [{name: 'forced-colors', value: 'active'}]});
  server.mine = states().ringing;
  await until(() => browser.find('#calls [data-state=alerting]'), 5);
  see('a ring is marked in forced colours too',
    await browser.run(`return getComputedStyle(document.querySelector('#calls li')).outlineStyle`) === 'solid');
  await browser.command('Emulation.setEmulatedMedia', {features: []});
  await browser.size(1920, 1080);
  server.end();
}
