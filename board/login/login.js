// Log-in: leads on to the page that was wanted, at once in a session.
import {byId, put, set} from '../draw.js';
import {ask, base, pause, sleep} from '../net.js';
import {translate, word} from '../words.js';

/** @type {Record<number, string>} */
const WORDS = {401: 'wrong', 403: 'nothing', 429: 'wait'}, PATIENCE = 60000, GIVES_UP = 120000;
const query = location.search, wanted = query.startsWith('?next=') ? query.slice('?next='.length) : '/board/';
const next = (/^\/board\/[^\\]*$/.test(wanted) ? wanted : '/board/') + location.hash;

const show = (key = '') => put('told', key && word(`login.${key}`));

// Agents and administrators get their page, if they wanted none.
/** @type {Record<string, string>} */
const PAGES = {agent: '/board/agent/', admin: '/board/office/'};
const goOn = (text = '') => location.replace(base + (/^\/board\/(#|$)/.test(next) && PAGES[JSON.parse(text).role] || next));

translate();
document.title = word('login.title');
if (['?wrong', '?wait'].includes(query)) show(query.slice(1));
else ask('/session').then(({status, text}) => { if (status === 200) goOn(text); }).catch(() => {});

// Where the gate has no room for all who log in, the page sends the form again, later each time.
/** @param {URLSearchParams} body */
async function logInAgain(body) {
  for (let begun = Date.now(), losses = 0; ; losses++) {
    const reply = await ask('/login', {method: 'POST', headers: {accept: 'application/json'}, body}, PATIENCE);
    if (reply.status !== 429 || Date.now() - begun > GIVES_UP) return reply;
    show('again');
    await sleep(pause(losses));
  }
}

/** @param {any} event */
async function logIn(event) {
  event.preventDefault();
  set('log-in-button', {disabled: true});
  show();
  try {
    const {status, text} = await logInAgain(new URLSearchParams(/** @type {any} */ (new FormData(byId('log-in')))));
    if (status === 200) goOn(text); else show(WORDS[status] ?? 'fault');
  } catch { show('fault'); }
  set('log-in-button', {disabled: false});
}
set('log-in', {onsubmit: logIn});
