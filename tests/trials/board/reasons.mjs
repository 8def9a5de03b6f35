// Reasons of not ready and codes of calls, by clicks: what is asked, what the gate keeps of it, what a board shows, and who may give none.
import {mkdir, readdir, readFile, writeFile} from 'node:fs/promises';
import {join} from 'node:path';
import {sleep, until} from './browser.mjs';
import {contrast} from './looks.mjs';
import {PHONE, SCREEN} from './page.mjs';
import {AGENT, button, Hands, requested} from './shift.mjs';

const OFFICE = {reasons: {lunch: 'Lunch', training: 'Training'}, codes: {sale: 'Sale', fault: 'Fault'}}, CALLER = '0301234567';
export const ROLES = [['pbx', 'exchange'], ['sup', 'supervisor'], ['ana', 'agent', AGENT], ['ben', 'agent', '8']];
const reason = key => `#reasons [data-reason="${key}"]`, code = key => `#codes [data-code="${key}"]`;

/** What the gate has kept, line by line; its folder has a part for each day. */
async function kept(front) {
  const folder = join(front.file, 'own/reasons'), files = await readdir(folder).catch(() => []);
  const parts = files.filter(name => /^\d{4}-\d\d-\d\d$/.test(name)).sort();
  const texts = await Promise.all(parts.map(part => readFile(join(folder, part), 'utf8')));
  return texts.join('').trim().split('\n').filter(Boolean).map(line => JSON.parse(line));
}

/** The last line, once it has these members. */
const last = (front, members) => until(async () => {
  const line = (await kept(front)).at(-1);
  return Object.entries(members).every(([name, value]) => line[name] === value) && line;
}, 5);

/** Both themes, and a phone. */
async function looks({see, browser}, name, folder) {
  for (const theme of ['dark', 'light']) {
    await browser.run(`document.documentElement.dataset.theme = '${theme}'`);
    const {low, sideways} = await contrast(browser);
    see(`${name}, ${theme}: contrast`, !low.length && !sideways, low[0]);
    await browser.picture(`${folder}/${name}-${theme}.png`);
  }
  await browser.size(...PHONE);
  see(`${name}: no sideways scrolling on a phone`, !(await contrast(browser)).sideways);
  await browser.picture(`${folder}/${name}-phone.png`);
  await browser.size(...SCREEN);
}

export async function reasons(see, browser, board, desk, front, older, folder) {
  const hands = new Hands(see, browser, desk, front), tile = () => board.text(`#agents-list [data-key="${AGENT}"]`);
  await writeFile(join(front.file, 'board.json'), JSON.stringify(OFFICE));
  await board.open(front.page('sup', '/board/?since=0#agents'));
  await hands.open();
  see('nothing is asked before a log-on',
    await browser.run('return document.querySelector("#reasons").hidden && document.querySelector("#codes").hidden'));
  await hands.logOn('110');
  await offWithoutClick(hands, front, tile);
  await asked(hands, front, tile, folder);
  const call = await codes(hands, front, folder);
  await afterCall(hands, front, tile);
  await others(hands, front, call);
  await required(hands, front);
  await behindOlder(see, browser, desk, older);
}

/** Who isn't ready without a click on it, as after a log-on, may say why, and take that back. */
async function offWithoutClick(hands, front, tile) {
  const {see} = hands;
  await hands.sees('who is not ready is asked why', '#reasons', 'Why not ready?LunchTraining');
  await hands.sees('and told that this is not the desk\'s', '#not-the-desks', 'the desk does not know them');
  await hands.click(reason('lunch'));
  const line = await last(front, {reason: 'lunch'});
  see('the gate keeps who, when and which',
    line && line.agent === AGENT && line.by === 'ana' && line.since > 0 && line.at >= line.since, JSON.stringify(line));
  await hands.sees('what was said is seen', `${reason('lunch')}[aria-pressed=true]`, 'Lunch', 5);
  see('a board shows it beside the state', Boolean(await until(async () => (await tile()).includes('not ready: Lunch'), 5)), await tile());
  await hands.click(reason(''));
  see('it is taken back',
    Boolean(await last(front, {reason: ''})) && Boolean(await until(async () => !(await tile()).includes('Lunch'), 5)), await tile());
}

/** A click on Not ready asks why first, and the desk after a choice; a second click asks the desk at once. */
async function asked(hands, front, tile, folder) {
  const {see, browser, desk} = hands, state = async () => (await desk.get(`/agents/${AGENT}`)).state;
  await hands.click(requested('ready'), '✓ Ready');
  see('who is ready is asked nothing', Boolean(await until(() => browser.run('return document.querySelector("#reasons").hidden'), 5)));
  await hands.click(requested('notReady'));
  await hands.sees('it is asked why', '#reasons', 'Why not ready?LunchTrainingWithout a reasonLeave it', 5);
  await looks(hands, 'reasons', folder);
  see('a key goes on with the first reason', await browser.run('return document.activeElement.dataset.reason') === 'lunch');
  await sleep(500);
  see('the desk is not asked yet', await state() === 'ready', await state());
  await hands.click(reason('leave'));
  see('it is left', Boolean(await until(() => browser.run('return document.querySelector("#reasons").hidden'), 5))
    && await state() === 'ready');
  await hands.click(requested('notReady'));
  await hands.click(reason('training'), '✓ Not ready');
  const line = await last(front, {reason: 'training'}), {since} = await desk.get(`/agents/${AGENT}`);
  see('it is kept with the moment since which the agent is not ready',
    line?.since === since && await state() === 'notReady', JSON.stringify(line));
  see('a board has the new one', Boolean(await until(async () => (await tile()).includes('not ready: Training'), 5)), await tile());
  await hands.click(requested('ready'), '✓ Ready');
  see('and none of who is ready', Boolean(await until(async () => !(await tile()).includes('Training'), 5)), await tile());
  const before = (await kept(front)).length;
  await hands.click(requested('notReady'));
  await hands.click(requested('notReady'), '✓ Not ready');
  see('without a reason where none has to be', await state() === 'notReady' && (await kept(front)).length === before);
  await hands.click(requested('ready'), '✓ Ready');
}

/** In after-call work it is asked what the call was about; Ready stays as it is, and the question stays until it is answered. */
async function codes(hands, front, folder) {
  const {see, browser, desk} = hands, call = await hands.call('110', CALLER);
  await hands.click(button('answerCall'), '✓ Answer');
  see('nothing is asked in a talk', await browser.run('return document.querySelector("#codes").hidden'));
  await sleep(1100);
  await hands.click(button('clearConnection'), '✓ Hang up');
  await hands.sees('it is asked about the call', '#codes', new RegExp(`^What was the call about\\?${CALLER} · Claims · 0:0\\dSaleFault$`));
  await looks(hands, 'codes', folder);
  await hands.click(requested('ready'), '✓ Ready');
  see('which is in nobody\'s way', (await desk.get(`/agents/${AGENT}`)).state === 'ready'
    && !await browser.run('return document.querySelector("#codes").hidden'));
  await hands.click(code('fault'));
  const line = await last(front, {code: 'fault'}), events = await desk.events(0);
  const talk = events.find(event => event.event === 'established' && event.call === call).moment;
  const today = new Date(1000 * events[0].moment).toISOString().slice(0, 10);
  see('it is kept by number, first day of the file and talk',
    line && line.call === call && line.file === today && line.talk === talk && line.agent === AGENT, JSON.stringify(line));
  see('then it is asked no more', Boolean(await until(() => browser.run('return document.querySelector("#codes").hidden'), 5)));
  await hands.sees('the last calls have it', '#day', /AboutAt?.*Fault|Fault/, 5);
  const all = JSON.stringify(await kept(front));
  see('no line has the caller\'s number', !all.includes(CALLER) && !all.includes('caller'));
  return {call, talk};
}

/** One that is asked for in a call counts after it. */
async function afterCall(hands, front, tile) {
  const {see} = hands;
  await hands.call('110', CALLER);
  await hands.click(button('answerCall'), '✓ Answer');
  await hands.click(requested('notReady'));
  await hands.click(reason('lunch'), '✓ Not ready');
  const line = await last(front, {reason: 'lunch'});
  see('it has no begin yet', line && line.since === undefined, JSON.stringify(line));
  await hands.sees('it is seen meanwhile', `${reason('lunch')}[aria-pressed=true]`, 'Lunch', 5);
  await hands.click(button('clearConnection'), '✓ Hang up');
  see('after the call a board shows it', Boolean(await until(async () => (await tile()).includes('not ready: Lunch'), 5)), await tile());
  await hands.sees('and it is asked what the call was about', '#codes', 'What was the call about?', 5);
}

/** Nobody gives one for another agent, or for a call of somebody else. */
async function others({see}, front, {call, talk}) {
  const before = (await kept(front)).length, ask = (login, body, ...more) => front.ask(login, '/reasons', body, ...more);
  for (const [login, body, status] of [
    ['ben', {agent: AGENT, reason: 'lunch'}, 403], ['sup', {agent: AGENT, reason: 'lunch'}, 403],
    ['ben', {agent: '8', call, talk, code: 'sale'}, 409], ['ben', {agent: AGENT, call, talk, code: 'sale'}, 403],
    ['ben', {agent: '8', reason: 'lunch'}, 409], ['ana', {agent: AGENT, reason: CALLER}, 400],
    ['ana', {agent: AGENT, call, talk: talk + 1, code: 'sale'}, 409], ['nobody', {agent: AGENT, reason: 'lunch'}, 401],
  ]) {
    const reply = await ask(login, body);
    see(`${login} may not give ${JSON.stringify(body)}`, reply.status === status, `${reply.status} ${reply.text}`);
  }
  see('nor may a page of another site',
    (await ask('ana', {agent: AGENT, reason: 'training'}, '-H', 'Origin: https://elsewhere')).status === 403);
  see('and it is no read', (await front.ask('ana', '/reasons')).status === 403);
  see('nothing of this was kept', (await kept(front)).length === before);
}

/** Where a reason has to be there is no way without one. */
async function required(hands, front) {
  const {see, browser, desk} = hands;
  await writeFile(join(front.file, 'board.json'), JSON.stringify({...OFFICE, requireReason: true}));
  await hands.open();
  await hands.click(requested('ready'), '✓ Ready');
  for (let times = 0; times < 2; times++) await hands.click(requested('notReady'));
  await hands.sees('there is no way without a reason', '#reasons', /^Why not ready\?LunchTrainingLeave it$/, 5);
  see('the desk is not asked by a second click', (await desk.get(`/agents/${AGENT}`)).state === 'ready');
  await hands.click(reason('lunch'), '✓ Not ready');
  see('it is kept', Boolean(await last(front, {reason: 'lunch'})));
  see('and can only become another one', !await browser.run(`return document.querySelector('${reason('')}') !== null`));
  await hands.click(requested('loggedOff'), '✓ Log off');
}

/** Behind an nginx.conf that knows no route for it the page takes another one. */
async function behindOlder(see, browser, desk, older) {
  const hands = new Hands(see, browser, desk, older);
  await mkdir(older.file, {recursive: true});
  await writeFile(join(older.file, 'board.json'), JSON.stringify(OFFICE));
  await hands.open();
  await hands.logOn('110');
  await hands.click(reason('training'));
  see('an older nginx.conf serves too', Boolean(await last(older, {reason: 'training'})), JSON.stringify(await kept(older)));
  await hands.click(requested('loggedOff'), '✓ Log off');
}
