// The answers of desk and gate to a login, and the session of a browser.
import {set} from './draw.js';
import * as net from './net.js';
import {offerPassword} from './password.js';
import {refusal, word} from './words.js';

const USED_EVERY = 60000, AGAIN = 5000;
let ends = false;

export async function ask(path = '') {
  const {status, text} = await net.ask(path).catch(({message}) => { throw new Error(word(`lost.${message}`)); });
  if (status !== 200) throw Object.assign(new Error(refusal(status, text)), {status});
  return JSON.parse(text);
}

// It comes back to the page that was open; a refusal while a session ends doesn't lead there.
export const logIn = () => ends || location.assign(`${net.base}/board/login/?next=${location.pathname}${location.search}${location.hash}`);

export async function logOut() {
  ends = true;
  try {
    await fetch(`${net.base}/logout`, {method: 'POST'});
    location.replace(`${net.base}/board/login/`);
  } catch { ends = false; }
}

// What the gate says of the login; nothing without a gate. Clicks use a session; a button ends it.
/** @type {OpenSession} */
export const openSession = async (leave, late) => {
  let who, used = 0;
  while (!who) try { who = await ask('/session'); } catch ({status, message}) {
    if ([401, 403, 404].includes(status)) return {};
    late?.(message);
    await net.sleep(AGAIN);
  }
  if (who.begun) for (const kind of ['pointerdown', 'keydown']) addEventListener(kind, () => {
    if (Date.now() - used < USED_EVERY) return;
    used = Date.now();
    fetch(`${net.base}/session`, {method: 'POST'}).catch(() => { used = 0; });
  }, {capture: true, passive: true});
  set('log-off', {hidden: !who.begun, onclick: leave});
  offerPassword(who);
  return who;
};
