// The agent's page in a browser: what rings, what stands, second clicks, kept requests, names, the day, a lost desk, sessions, words and
// layout.
import {lostReply, otherLogOn, olderPage, tooOld} from './kept.mjs';
import {sleep, until} from './browser.mjs';
import {layout, owners, words} from './plain.mjs';
import {hangs} from './page.mjs';
import {session} from './session.mjs';
import {AGENT, button, Hands, refused, requested, shift, STATION} from './shift.mjs';

const F2 = '\uE032', F8 = '\uE038';

/** In their order; from the second on up to the console they need an agent who is logged on. */
export const PARTS = {shift, atBoard, lastLogOn, byKeys, rings, hidden, secondClicks, missedOffer, changed, places, sentOn, day, lost,
  lostReply, tooOld, otherLogOn, olderPage, quiet, owners, words, layout, session};

export async function agentsPage(see, browser, desk, front, folder, only = Object.keys(PARTS)) {
  const hands = new Hands(see, browser, desk, front);
  for (const part of only) await PARTS[part](hands, folder);
  await refused(see, browser, desk, front);
}

/** The browser had nothing to say but of what was refused or lost on purpose. */
async function quiet({see, browser}) {
  const said = (await browser.said()).filter(line => !/(status of (401|403|409|50[24])|ERR_FAILED|Failed to fetch)/.test(line));
  see('the console is empty', !said.length, said[0]);
}

/** An agent who opens the board, which this login may not read, is sent to the own page. */
async function atBoard({see, browser, front}) {
  await browser.open(front.page('ana', '/board/?x=1'));
  const place = () => browser.run('return location.pathname'), isThere = async () => await place() === '/board/agent/';
  see('an agent at the board comes to the own page', Boolean(await until(isThere, 10)), await place());
}

/** One button logs on as the last time, where the station is free. */
async function lastLogOn(hands) {
  await hands.open();
  await hands.sees('as the last time', '#again', 'Log on as last time: at 207, Billing, Claims', 10);
  const filled = await hands.browser.run(`return [document.querySelector("[name=station]").value,
    ...[...document.querySelectorAll("#groups input:checked")].map(box => box.value)]`);
  hands.see('the form is as the last time too', String(filled) === '207,100,110', String(filled));
  await hands.click('#again:enabled', `✓ Log on at ${STATION}`);
  const agent = await until(async () => { const {agent} = await hands.mine(); return agent.device && agent; }, 5);
  hands.see('it did', agent.device === STATION && String(agent.groups) === '100,110', JSON.stringify(agent));
}

/** By keys alone: what has the focus at a log-on, a change of state and a log-off; a button that doesn't apply keeps it, and a change is
 * read out. */
async function byKeys(hands) {
  const {see, browser} = hands, focused = () => browser.run('return document.activeElement.dataset.requested ?? document.activeElement.id');
  await hands.click(requested('loggedOff'), '✓ Log off');
  await until(() => browser.find('#again:enabled'), 10);
  await sleep(450);
  await browser.run('document.querySelector("#again").focus()');
  await browser.press('\uE007');
  await hands.said('✓ Log on at');
  see('behind a log-on the states have the focus', Boolean(await until(async () => await focused() === 'ready', 5)), await focused());
  await browser.run(`window.said = []; const words = document.querySelector('#state-words');
    new MutationObserver(() => window.said.push(words.textContent)).observe(words, {childList: true, characterData: true, subtree: true})`);
  await sleep(450);
  await browser.press('\uE007');
  await hands.said('✓ Ready');
  see('the button that was pressed keeps it',
    await focused() === 'ready' && await browser.run('return document.activeElement.getAttribute("aria-disabled") === "true"'),
    await focused());
  await hands.ask('setAgentState', {agent: AGENT, requested: 'notReady'});
  see('what others change is read out',
    Boolean(await until(async () => String(await browser.run('return said')) === 'ready,not ready', 5))
      && await browser.run('return document.querySelector("#state-words").role') === 'status', String(await browser.run('return said')));
}

/** Counts what makes itself noticed: tones, notifications, changes of the live region and of the title. */
const COUNTING = `
  const start = OscillatorNode.prototype.start;
  Object.assign(window, {tones: 0, notices: [], shut: 0, said: [], titles: []});
  OscillatorNode.prototype.start = function (...more) { window.tones++; return start.apply(this, more); };
  window.Notification = class {
    static permission = 'granted';
    constructor(title, how) { window.notices.push([title, how]); window.notice = this; }
    close() { window.shut++; }
  };
  new MutationObserver(() => window.said.push(document.querySelector('#ring').textContent))
    .observe(document.querySelector('#ring'), {childList: true, characterData: true, subtree: true});
  new MutationObserver(() => window.titles.push([Date.now(), document.title, document.visibilityState]))
    .observe(document.querySelector('title'), {childList: true, characterData: true, subtree: true});`;

/** A ring is seen in the title, heard, told by the browser, said once, and answered by a key. */
async function rings(hands) {
  const {see, browser} = hands;
  await hands.open();
  await hands.sees('a page that may not sound says so', '#notices', 'Click here once');
  await browser.run(`${COUNTING} document.hasFocus = () => false;`);
  await hands.click(requested('ready'), '✓ Ready');
  await hands.sees('and no longer behind a click', '#notices', /^$/);
  const call = await hands.call('110', '0301234');
  see('the title says who calls', Boolean(await until(async () => await browser.run('return document.title') === '◆ 0301234 Claims', 3)),
    await browser.run('return document.title'));
  await sleep(4200);
  const {tones, notices, said, shut} = await browser.run('return {tones, notices, said, shut}');
  see('it sounds every other second', tones >= 4 && tones <= 8, tones);
  see('the browser tells it once',
    notices.length === 1 && notices[0][0] === '◆ 0301234 Claims' && notices[0][1].requireInteraction && shut === 0,
    JSON.stringify(notices));
  see('who hears the page is told once', String(said) === '0301234 Claims rings', String(said));
  const colour = await browser.run(`return [getComputedStyle(document.querySelector("#calls li")).backgroundColor,
    getComputedStyle(document.querySelector("#own-queues")).backgroundColor, document.body.hasAttribute("data-rings")]`);
  see('it is coloured', colour[0] !== colour[1] && colour[2], String(colour));
  await browser.run('document.querySelector("#calls input").focus()');
  await browser.press(F2);
  see('F2 answers', Boolean(await hands.said('✓ Answer: 0301234')), await hands.text('#told'));
  see('and nothing rings any more',
    Boolean(await until(
      async () => !(await browser.run('return document.title')).startsWith('◆')
        && await browser.run('return window.shut === 1 && !document.body.hasAttribute("data-rings")'), 3)));
  const before = await browser.run('return tones');
  await sleep(2500);
  see('nor sounds', await browser.run('return tones') === before);
  await hands.click(button('clearConnection'), '✓ Hang up');
  await notNow(hands, call);
}

/** Without a tone where none is wanted; F8 is Not now, and nothing else beside Answer ends the call. */
async function notNow(hands) {
  const {see, browser} = hands;
  await browser.run('document.querySelector("#tone").click(); window.tones = 0;');
  await hands.click(requested('ready'), '✓ Ready');
  const call = await hands.call('110', '0305678');
  await until(() => browser.find(button('rejectCall')), 10);
  see('there is no Hang up beside Answer',
    !await browser.run(`return document.querySelector('#calls [data-service=clearConnection]').checkVisibility()`));
  const apart = await browser.run(
    `const [answer, no] = ['answerCall',
      'rejectCall'].map(service => document.querySelector('[data-service=' + service + ']').getBoundingClientRect());
      return no.left - answer.right`);
  see('Not now stands apart', apart >= 24, apart);
  await sleep(2000);
  see('no tone where none is wanted', await browser.run('return tones') === 0);
  await browser.press(F8);
  see('F8 is Not now', Boolean(await hands.said('✓ Not now: 0305678')), await hands.text('#told'));
  see('the caller still waits',
    Boolean(await until(async () => (await hands.desk.get(`/calls/${call}`)).connections.some(one => one.state === 'queued'), 5)));
  await hands.desk.post({requester: `end-${call}`, invoke: 1, service: 'clearConnection', call, device: '110'});
  await browser.run('document.querySelector("#tone").click()');
}

/** In a tab that isn't seen the ring comes as soon. */
async function hidden(hands) {
  const {see, browser} = hands, page = await browser.ask('GET', '/window');
  await browser.run(COUNTING);
  await hands.click(requested('ready'), '✓ Ready');
  const other = await browser.ask('POST', '/window/new', {type: 'tab'});
  await browser.ask('POST', '/window', {handle: other.handle});
  await browser.ask('POST', '/url', {url: 'about:blank'});
  await sleep(3000);
  const began = Date.now(), call = await hands.call('110', '0309');
  await sleep(2500);
  await browser.ask('DELETE', '/window');
  await browser.ask('POST', '/window', {handle: page});
  const titles = await browser.run('return titles'), rang = titles.find(([, title]) => title === '◆ 0309 Claims');
  see('a hidden tab rings within a second', rang && rang[2] === 'hidden' && rang[0] - began < 1000, JSON.stringify([began, titles]));
  await hands.click(button('answerCall'), '✓ Answer');
  await hands.click(button('clearConnection'), '✓ Hang up');
  return call;
}

/** A second click, a key that is held, and clicks while there is no answer ask for nothing more, and are no fault. */
async function secondClicks(hands) {
  const {see, browser} = hands;
  await browser.run(`window.posts = []; window.faults = []; const before = fetch;
    window.fetch = async (address, how) => {
      if (how?.method === 'POST' && String(address).endsWith('/csta')) {
        window.posts.push(JSON.parse(how.body).service);
        await new Promise(done => setTimeout(done, window.slow ?? 0));
      }
      return before(address, how);
    };
    new MutationObserver(() => {
      if (document.querySelector('#told').textContent.startsWith('■')) window.faults.push(document.querySelector('#told').textContent);
    }).observe(document.querySelector('#told'), {childList: true, characterData: true, subtree: true});`);
  await hands.click(requested('ready'), '✓ Ready');
  await hands.call();
  await until(() => browser.find(button('answerCall')), 10);
  await sleep(450);
  await browser.run('window.posts.length = 0');
  const pointer = await browser.run(`const box = document.querySelector('#calls [data-service=answerCall]').getBoundingClientRect();
    return [Math.round(box.left + 20), Math.round(box.top + box.height / 2)]`);
  const press = [{type: 'pointerDown', button: 0}, {type: 'pointerUp', button: 0}, {type: 'pause', duration: 150}];
  await browser.ask('POST', '/actions',
    {actions: [{type: 'pointer', id: 'mouse', actions: [{type: 'pointerMove', x: pointer[0], y: pointer[1]}, ...press, ...press]}]});
  await hands.said('✓ Answer');
  await sleep(800);
  see('a double click answers, and does nothing else', String(await browser.run('return posts')) === 'answerCall',
    String(await browser.run('return posts')));
  await browser.run('window.posts.length = 0; window.slow = 1500');
  await sleep(450);
  const off = await browser.run(`const button = document.querySelector('#calls [data-service=holdCall]'); button.click();
    const off = button.disabled; for (let time = 0; time < 5; time++) button.click(); return off`);
  see('a button is off until its answer', off);
  await browser.run(`document.querySelector('#calls [data-service=holdCall]').disabled = false`);
  await sleep(500);
  await browser.run(`document.querySelector('#calls [data-service=holdCall]').click()`);
  await hands.said('✓ Hold');
  see('and is asked once', String(await browser.run('return posts')) === 'holdCall', String(await browser.run('return posts')));
  await browser.run('window.slow = 0');
  await hands.click(button('retrieveCall'), '✓ Retrieve');
  await hands.click(button('clearConnection'), '✓ Hang up');
  await until(() => browser.find(requested('ready')), 10);
  await sleep(450);
  await browser.run(`window.posts.length = 0;
    for (const state of ['ready', 'notReady']) document.querySelector('#states [data-requested=' + state + ']').click();`);
  await sleep(800);
  see('nor does the second click of two hit what has come in its way', String(await browser.run('return posts')) === 'setAgentState',
    String(await browser.run('return posts')));
  see('no click was a fault', !(await browser.run('return faults')).length, String(await browser.run('return faults')));
  see('what was done is told for five seconds', Boolean(await until(async () => await hands.text('#told') === '', 7)),
    await hands.text('#told'));
}

/** An offer that is taken back stands as a sentence, over a new load, until somebody clicks it away. */
async function missedOffer(hands, folder) {
  const {see, browser} = hands;
  await hands.click(requested('loggedOff'), '✓ Log off');
  await until(() => browser.find('#log-on-button:enabled'), 10);
  await hands.logOn('130');
  await hands.click(requested('ready'), '✓ Ready');
  const call = await hands.call('130', '0401111');
  await until(() => browser.find(button('answerCall')), 10);
  await sleep(3500);
  await hands.ask('tick');
  const words = /^You did not answer 0401111, Quick \(it rang 0:0[3-6], until \d\d:\d\d:\d\d\), so you are not ready\.ReadyRead$/;
  await hands.sees('an offer that was taken back stands', '#notices [data-key=missed]', words, 5);
  await browser.picture(`${folder}/agent-missed.png`);
  await hands.open();
  await hands.sees('over a new load too', '#notices [data-key=missed]', words, 10);
  await sleep(450);
  await browser.click('#notices [data-key=missed] button');
  see('its button makes ready', Boolean(await hands.said('✓ Ready')), await hands.text('#told'));
  await hands.sees('and it is gone', '#notices', /^$/, 5);
  await hands.click(button('answerCall'), '✓ Answer: 0401111');
  await hands.open();
  await sleep(500);
  await hands.sees('for good', '#notices', /^(Click here once.*)?$/, 1);
  await hands.click(button('clearConnection'), '✓ Hang up');
  await hands.sees('after-call work says when it ends', '#pending', /^ready in 0:(0\d|1[0-2]) · at 207$/, 5);
  await sleep(12500);
  await hands.sees('and that it is about to', '#pending', /^ready in a moment · at 207$/, 3);
  await hands.ask('tick');
  await hands.sees('then it is', '#state', 'ready', 5);
  return call;
}

/** A state that a lead takes is told with who did it, after a new load too, until that is read or the agent asks for another one. */
async function changed(hands) {
  const {see, front} = hands, nothing = /^(Click here once.*)?$/;
  const asked = {requester: 'max', service: 'setAgentState', agent: AGENT};
  const lead = (requested, invoke) => front.ask('max', '/csta', {...asked, invoke, requested});
  const told = state => new RegExp(`^max changed your state at \\d\\d:\\d\\d:\\d\\d: ${state}\\.Read$`);
  see('a lead takes the state', (await lead('notReady', 1)).status === 200);
  await hands.sees('the agent is told by whom', '#notices [data-key=changed]', told('■ not ready'), 5);
  await hands.open();
  await hands.sees('after a new load too', '#notices [data-key=changed]', told('■ not ready'), 10);
  await hands.click('#notices [data-key=changed] button');
  await hands.sees('it is gone once it is read', '#notices', nothing, 5);
  await hands.open();
  await sleep(500);
  await hands.sees('for good', '#notices', nothing, 1);
  see('the lead gives it back', (await lead('ready', 2)).status === 200);
  await hands.sees('which is told too', '#notices [data-key=changed]', told('● ready'), 5);
  await hands.click(requested('notReady'), '✓ Not ready');
  await hands.sees('until the agent asks for another one', '#notices', nothing, 5);
  await hands.click(requested('ready'), '✓ Ready');
}

/** A place by its number or a name; where nobody is logged on it is asked first. */
async function places(hands) {
  const {see, browser} = hands, type = text => browser.run('document.querySelector("#calls input").value = arguments[0]', text);
  const first = await hands.call('130', '0402');
  await hands.click(button('answerCall'), '✓ Answer');
  const last = await hands.last();
  for (const [typed, told] of [['', 'say to whom'], ['nobody', 'nobody and nothing here is called nobody'],
    ['ben', 'ben is not logged on']]) {
    await type(typed);
    await hands.click(button('singleStepTransfer'));
    see(`a transfer to '${typed}'`, Boolean(await hands.said(`■ Transfer: ${told}`)), await hands.text('#told'));
  }
  await type('208');
  await hands.click(button('singleStepTransfer'));
  await hands.sees('where nobody is logged on it is asked', '#notices', 'Nobody is logged on at 208.Transfer all the sameNo');
  await browser.click('#notices button:last-child');
  await sleep(300);
  see('and not done behind a no', (await hands.events(last)).length === 0 && await hands.text('#notices') === '',
    String(await hands.events(last)));
  await hands.ask('setAgentState', {agent: '8', requested: 'loggedOn', device: '208', group: '120'});
  await until(() =>
    browser.run('return [...document.querySelectorAll("#destinations option")].some(option => option.label === "Ben Berg")'), 15);
  await type('BEN');
  await hands.click(button('singleStepTransfer'));
  await hands.allTheSame('Ben Berg (208): ■ not ready.', 'Transfer');
  see('it is said: Transfer', Boolean(await hands.said('✓ Transfer: 0402, to Ben Berg (208)')), await hands.text('#told'));
  see('a name finds its number', (await hands.events(last))[0] === `transferred ${first}`, String(await hands.events(last)));
  await hands.ask('clearConnection', {call: first, device: '208'});
  await dial(hands);
}

/** A caller whom a colleague passes on: no button throws the caller out, Back gives the call to the colleague, or to the group where that
 * one has a break. */
async function sentOn(hands) {
  const {see, browser, desk} = hands;
  const at = async call => (await desk.get(`/calls/${call}`)).connections.map(one => one.device).filter(one => one !== '0405');
  const buttons = () =>
    browser.run(`return [...document.querySelectorAll('#calls li:first-child .buttons button')].filter(one => one.checkVisibility())
      .map(one => one.textContent)`);
  for (const {call} of (await desk.get('/queues/120')).calls) await hands.ask('clearConnection', {call, device: '120'});
  await hands.ask('setAgentState', {agent: '8', requested: 'loggedOn', device: '208', group: '120'});
  await hands.ask('setAgentState', {agent: '8', requested: 'ready'});
  const call = await hands.call('120', '0405'), pass = async () => {
    await hands.ask('answerCall', {call, device: '208'});
    await hands.ask('singleStepTransfer', {call, device: '208', to: STATION});
    await until(() => browser.find('#calls [data-state=alerting]'), 10);
  };
  await pass();
  await hands.sees('it says where the caller comes from', '#calls li', 'to you · Orders', 5);
  see('Answer, Back and Pass on', String(await buttons()) === 'Answer F2,Back F8,Pass on', String(await buttons()));
  await sleep(450);
  await browser.press(F8);
  see('F8 is Back', Boolean(await hands.said('✓ Back: 0405, to Ben Berg (208)')), await hands.text('#told'));
  see('it rings at the colleague', String(await at(call)) === '208', String(await at(call)));
  await pass();
  await hands.ask('setAgentState', {agent: '8', requested: 'notReady'});
  see('who has a break gets nothing back', Boolean(await until(async () => (await hands.mine()).calls[0]?.back === '120', 5)),
    JSON.stringify((await hands.mine()).calls[0]));
  await hands.click(button('back'), '✓ Back: 0405, to Orders (120)');
  see('it waits in its group', String(await at(call)) === '120', String(await at(call)));
  await hands.ask('setAgentState', {agent: '8', requested: 'ready'});
  await pass();
  await hands.ask('setAgentState', {agent: '8', requested: 'notReady'});
  await sleep(450);
  await browser.press(F2);
  await hands.said('✓ Answer: 0405');
  await hands.sees('the talk is one', '#state', 'on a call', 5);
  await browser.run('document.querySelector("#calls input").value = "ben"');
  await hands.click(button('singleStepTransfer'));
  await hands.sees('who is not ready is asked about', '#notices', 'Ben Berg (208): ■ not ready.Transfer all the sameNo', 5);
  await browser.click('#notices button:last-child');
  await hands.click(button('clearConnection'), '✓ Hang up');
  await hands.ask('setAgentState', {agent: '8', requested: 'loggedOff'});
}

/** A name that is dialled rings at the colleague by that click alone; where calls don't ring on the page, the telephone is lifted first. */
async function dial(hands) {
  const {see, browser, desk} = hands, last = (await desk.events(0)).at(-1).number;
  const own = async () => (await desk.get('/snapshot')).calls.find(call => call.caller === STATION);
  const stateAt = (call, device) => call?.connections.find(one => one.device === device)?.state;
  await hands.click(requested('notReady'), '✓ Not ready');
  await browser.run('document.querySelector("#called").value = "ben"');
  await hands.click('#dial button', '✓ Call: Ben Berg (208)');
  const rings = Boolean(await until(async () => stateAt(await own(), '208') === 'alerting', 5));
  see('a dialled call rings there', rings && (await own()).called === '208', JSON.stringify(await own()));
  const happened = (await desk.events(last)).filter(one => one.call && one.device === STATION).map(one => one.event);
  see('which the page picked up', String(happened) === 'serviceInitiated,originated', String(happened));
  see('without a button for it', Boolean(await until(() => browser.run(`return document.querySelector('#calls [data-state=connected]')
    && !document.querySelector('#calls [data-service=phoneOffHook]').checkVisibility()`), 5)));
  see('and nothing can be dialled beside it', await browser.run('return document.querySelector("#dial").hidden'));
  await hands.click(button('clearConnection'), '✓ Hang up: 208');
  await browser.click('#tone');
  await browser.run('document.querySelector("#called").value = "ben"');
  await hands.click('#dial button', '✓ Call: Ben Berg (208)');
  await hands.sees('the telephone rings first', '#calls .soft', 'your telephone rings first', 5);
  await sleep(1500);
  see('so the page waits for it', stateAt(await own(), STATION) === 'initiated', JSON.stringify(await own()));
  await hands.click(button('phoneOffHook'), '✓ Pick up: 208');
  see('or for a click', stateAt(await own(), '208') === 'alerting', JSON.stringify(await own()));
  await hands.click(button('clearConnection'), '✓ Hang up: 208');
  await browser.click('#tone');
  await hands.ask('setAgentState', {agent: '8', requested: 'loggedOff'});
}

/** The day: answered calls, talk and missed offers as the desk's events have them. */
async function day(hands) {
  const {see, desk} = hands, events = await desk.events(0);
  const of = event => events.filter(one => one.event === event && (one.agent === AGENT || one.device === STATION));
  // a caller whom a colleague passed on is one of the own, and no state of the agent
  const answered = of('established').length, direct = of('established').filter(one => !one.group).map(one => one.call);
  const missed = of('diverted').filter(one => one.cause === 'noAnswer').length;
  let talking = direct.reduce(
    (sum, call) =>
      sum + events.find(one => one.event === 'connectionCleared' && one.call === call).moment
        - events.find(one => one.event === 'established' && one.call === call && one.device === STATION).moment, 0);
  let since = null;
  for (const event of events.filter(one => one.agent === AGENT)) {
    if (since !== null) talking += event.moment - since;
    since = event.event === 'agentBusy' ? event.moment : null;
  }
  const average = Math.floor(talking / answered), sums = await hands.text('#day-sums');
  see("the day is the desk's",
    sums === `${answered} calls answered · talk 0:${String(average).padStart(2, '0')} on average · ${missed} offers not taken`,
    `${sums}, not ${answered}, ${average}, ${missed}`);
  const rows = await hands.browser.run(
    'return [...document.querySelectorAll("#day tbody tr")].map(row => [...row.children].map(cell => cell.textContent))');
  see('the last calls, the last one first',
    rows.length === 5 && String(rows.slice(0, 3).map(row => row.slice(1, 3))) === '0405,Orders,0402,Quick,0401111,Quick',
    JSON.stringify(rows));
}

/** While nobody knows what goes on no clock goes on either, and all is grey soon. */
async function lost(hands) {
  const {see, browser, desk} = hands, clock = () => browser.run('return document.querySelector("#state time").textContent');
  desk.child.kill('SIGSTOP');
  await hands.sees('a desk that hangs is told', '#status-text', 'What you see is old: the desk does not answer', 8);
  see('its age stands beside, where no reader reads it each second',
    await browser.run(`const age = document.querySelector('#status-age');
      return /old$/.test(age.textContent) && !age.closest('[role=status], [role=alert]')`));
  see('buttons are off',
    await browser.run('return [...document.querySelectorAll("#states button")].every(button => button.ariaDisabled === "true")'));
  await sleep(8000);
  const stood = await clock();
  await sleep(2500);
  see('the clock stands', stood === await clock(), `${stood} ${await clock()}`);
  see('and all is grey', Boolean(await until(() => browser.run('return document.body.hasAttribute("data-old")'), 8)));
  desk.child.kill('SIGCONT');
  see('it goes on by itself',
    Boolean(await until(
      async () => await hands.text('#status-text') === 'Live' && !await browser.run('return document.body.hasAttribute("data-old")'), 10)),
    await hands.text('#status-text'));
  await hangs(see, browser, hands.front, clock);
}
