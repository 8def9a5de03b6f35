// The office's file of a customer: which addresses are taken, and a click while it rings.
import {createServer} from 'node:http';
import {writeFile} from 'node:fs/promises';
import {join} from 'node:path';
import {freePort, sleep, until} from './browser.mjs';
import {AGENT, STATION} from './shift.mjs';

const HTTPS = 'https://crm.example/find?tel={caller}';

/** What is made of each address, for a caller. */
export function addresses(see, {customerOf, customerFile}) {
  for (const [what, said, caller, wanted, faults] of [
    ['https', {address: HTTPS}, '0301234', 'https://crm.example/find?tel=0301234', ''],
    ['twice', {address: `${HTTPS}&also={caller}`}, '7', 'https://crm.example/find?tel=7&also=7', ''],
    ['nothing said', undefined, '7', undefined, ''],
    ['http', {address: HTTPS.replace('https', 'http')}, '7', undefined, 'customer.address'],
    ['http that the office allows', {address: HTTPS.replace('https', 'http'), schemes: ['http']}, '7', 'http://crm.example/find?tel=7', ''],
    ["a program's own", {address: 'crm-app:{caller}', schemes: ['https', 'crm-app']}, '7', 'crm-app:7', ''],
    ['javascript', {address: 'javascript:alert({caller})'}, '7', undefined, 'customer.address'],
    ['javascript that the office allows', {address: 'javascript:alert({caller})', schemes: ['javascript']}, '7', undefined,
      'customer.schemes,customer.address'],
    ['data', {address: 'data:text/html,{caller}', schemes: ['https', 'data']}, '7', undefined, 'customer.schemes,customer.address'],
    ['JavaScript, in large letters and with a blank', {address: ' JavaScript:alert({caller})', schemes: ['https']}, '7', undefined,
      'customer.address'],
    ['the path of this site', {address: '/find?{caller}'}, '7', undefined, 'customer.address'],
    ['no place for the caller', {address: 'https://crm.example/'}, '7', undefined, 'customer.address'],
    ['no text', {address: 7}, '7', undefined, 'customer.address'], ['no object', HTTPS, '7', undefined, 'customer'],
    ['nothing in it', {}, '7', undefined, 'customer.address'],
    ['too long', {address: HTTPS + 'x'.repeat(1000)}, '7', undefined, 'customer.address'],
    ['a member that is none', {address: HTTPS, tab: 'same'}, '7', 'https://crm.example/find?tel=7', 'customer.tab'],
    ['schemes that are none', {address: HTTPS, schemes: 'http'}, '7', 'https://crm.example/find?tel=7', 'customer.schemes'],
    ['no digits', {address: HTTPS}, '0301&x=1', undefined, ''], ['no caller', {address: HTTPS}, undefined, undefined, ''],
    ['digits of another script', {address: HTTPS}, '٣', undefined, ''],
  ]) {
    const {customer, faults: found} = customerOf(said), has = customerFile(customer, caller);
    see(`a customer's file, ${what}`, has === wanted && String(found) === faults, `${has} ${found}`);
  }
}

/** A server in the place of the office's own, which keeps what it is asked for. */
async function office() {
  const port = await freePort(), asked = [];
  const server = createServer((request, reply) => {
    asked.push(`${request.url} ${request.headers.referer ?? 'from nowhere'}`);
    reply.writeHead(200, {'content-type': 'text/html'}).end('<title>Customer</title>');
  });
  await new Promise(done => server.listen(port, '127.0.0.1', done));
  return {asked, address: `http://127.0.0.1:${port}/file?tel={caller}`, end: () => { server.closeAllConnections(); server.close(); }};
}

export async function customers(see, browser, desk, front) {
  const crm = await office(), file = join(front.file, 'board.json'), link = '#calls .customer a';
  const windows = () => browser.ask('GET', '/window/handles'), go = handle => browser.ask('POST', '/window', {handle});
  const open = async said => {
    await writeFile(file, JSON.stringify(said));
    await browser.fresh(front.page('ana', '/board/agent/'));
    return until(() => browser.run('return document.body.hasAttribute("data-rings")'), 15);
  };
  let invoke = 0;
  const ask = (service, members) => desk.post({requester: 'customers', invoke: ++invoke, service, ...members});
  await ask('setAgentState', {agent: AGENT, requested: 'loggedOn', device: STATION, group: '100'});
  await ask('setAgentState', {agent: AGENT, requested: 'ready'});
  await ask('arriveCall', {caller: '0301234567', called: '100'});
  see('it rings', await open({}));
  see('without an address there is no link', !await browser.run('return document.querySelector(arguments[0])', link));
  await open({customer: {address: crm.address, schemes: ['https', 'http']}});
  const [href, target, rel, text] = await browser.run(
    'const link = document.querySelector(arguments[0]); return [link.href, link.target, link.rel, link.textContent]', link);
  see('the link of the caller',
    String([href, target, rel, text])
      === String([crm.address.replace('{caller}', '0301234567'), '_blank', 'noopener noreferrer', 'Customer file']),
    `${href} ${target} ${rel} ${text}`);
  const [here] = await windows();
  await browser.click(link);
  const other = await until(async () => (await windows()).find(handle => handle !== here), 10);
  see('a click opens a tab of its own', Boolean(other));
  await go(other);
  const shown = await until(
    () => browser.run('return document.title === "Customer" && [location.href, String(window.opener), document.referrer]'), 10);
  see('which knows nothing of the page', String(shown) === String([href, 'null', '']), String(shown));
  see('and tells the office nothing but the caller', crm.asked.includes('/file?tel=0301234567 from nowhere'), String(crm.asked));
  await browser.ask('DELETE', '/window');
  await go(here);
  see('it rings on, on the page as it was',
    await browser.run('return document.body.hasAttribute("data-rings") && location.pathname === "/board/agent/"'));
  await browser.run('document.querySelector(arguments[0]).focus()', link);
  await browser.press('\uE007');
  see('a key does it too', Boolean(await until(async () => (await windows()).length === 2, 10)));
  await go((await windows()).find(handle => handle !== here));
  await browser.ask('DELETE', '/window');
  await go(here);
  await open({customer: {address: 'javascript:alert({caller})', schemes: ['javascript']}});
  await sleep(500);
  see('never a script', !await browser.run('return document.querySelector(arguments[0])', link));
  await browser.fresh(front.page('sup', '/board/?since=0#queues'));
  see('which the board tells',
    Boolean(await until(
      async () => (await browser.text('#fault')) === "board.json of the office can't be used: customer.schemes, customer.address", 10)),
    await browser.text('#fault'));
  crm.end();
}
