// A browser that logs in by the form: where it comes to, that its cookie is hidden, and how its session ends.
import {Browser, sleep, until} from './browser.mjs';
import {AGENT, Hands, requested, STATION} from './shift.mjs';

const where = browser => browser.run('return location.pathname + location.search');

export async function logIn(hands, login, page) {
  const {browser, front} = hands;
  await browser.open(`${front.address}${page}`);
  await until(async () => (await where(browser)).startsWith('/board/login/'), 10);
  hands.see(`${page} leads to the log-in`, await where(browser) === `/board/login/?next=${page}`, await where(browser));
  await browser.run(
    `document.querySelector('[name=login]').value = arguments[0]; document.querySelector('[name=password]').value = arguments[1]`,
    login, 'guess');
  await browser.click('button');
  await hands.sees('a wrong password is told', '#told', 'Name or password is wrong.');
  await browser.run(`document.querySelector('[name=password]').value = 'secret'`);
  await browser.click('button');
  await until(async () => await where(browser) === page, 10);
}

export async function session(outer, folder) {
  const browser = await Browser.start(1366, 768), hands = new Hands(outer.see, browser, outer.desk, outer.front), {see, desk} = hands;
  try {
    await logIn(hands, 'ana', '/board/agent/');
    await hands.sees('the page of who logged in', '#name', `Ana Adler (${AGENT})`);
    see('no script sees the cookie',
      await browser.run('return document.cookie') === ''
        && (await browser.ask('GET', '/cookie'))
          .some(one => one.name === '__Host-acd' && one.httpOnly && one.secure && one.sameSite === 'Strict'));
    const used = await browser.run(`window.uses = 0; const before = fetch;
      window.fetch = (address, how) => {
        if (String(address).endsWith('/session') && how?.method === 'POST') window.uses++;
        return before(address, how);
      };
      return window.uses`);
    await hands.logOn('100');
    await hands.click(requested('ready'), '✓ Ready');
    await browser.press('\uE00C');
    see('clicks and keys use the session, once a minute', used === 0 && await browser.run('return window.uses') === 1,
      await browser.run('return window.uses'));
    await browser.picture(`${folder}/agent-session.png`);
    await behindACall(hands);
    await logIn(hands, 'ana', `/board/agent/?station=${STATION}&groups=100`);
    await elsewhere(hands);
    see('the desk was asked for each log-off', (await desk.get(`/agents/${AGENT}`)).state === 'null');
  } finally { await browser.end(); }
}

/** Log off here, with a call: the desk logs off behind it, and then the session ends. */
async function behindACall(hands) {
  const {see, browser, desk} = hands, call = await hands.call('100', '0303');
  await hands.click('#calls [data-service=answerCall]:not([hidden])', '✓ Answer');
  await hands.click('#log-off', '✓ Log off');
  await hands.sees('it is said that it comes', '#notices', 'You are logged off here as soon as the desk has logged you off.');
  see('a call isn\'t cut off', (await desk.get(`/agents/${AGENT}`)).state === 'busy');
  await hands.click('#calls [data-service=clearConnection]:not([hidden])');
  see('behind it the session ends', Boolean(await until(async () => await where(browser) === '/board/login/', 10)), await where(browser));
  see('and the agent is logged off', (await desk.get(`/agents/${AGENT}`)).state === 'null', call);
  see('the cookie is gone', !(await browser.ask('GET', '/cookie')).some(one => one.name === '__Host-acd'));
}

/** A session that ends elsewhere: the page goes to the log-in by itself. */
async function elsewhere(hands) {
  const {see, browser} = hands;
  await until(() => browser.run('return window.agent?.mine()?.live'), 10);
  await browser.run(`return fetch(location.origin + '/logout', {method: 'POST'}).then(reply => reply.status)`);
  see('without a session it is the log-in',
    Boolean(await until(async () => (await where(browser)).startsWith('/board/login/?next=/board/agent/'), 12)), await where(browser));
  await sleep(200);
}
