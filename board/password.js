// Everybody's own password: a button beside that of the log-off, and the form that it opens.
import {byId, make, put, set} from './draw.js';
import {ask} from './net.js';
import {refusal, word} from './words.js';

const SHORTEST = 10, SHOWN = 5000;
/** @type {[string, string][]} */
const FIELDS = [['old', 'current-password'], ['new', 'new-password'], ['again', 'new-password']];

/** @param {any} event */
async function change(event) {
  event.preventDefault();
  const {old, new: given, again, change: button} = event.target.elements, told = (text = '') => put('password-told', text);
  if (given.value !== again.value) return told(`■ ${word('password.differs')}`);
  button.disabled = true;
  const body = JSON.stringify({old: old.value, new: given.value});
  const reply = await ask('/password', {method: 'POST', body, headers: {'content-type': 'application/json'}}).catch(() => null);
  button.disabled = false;
  if (reply?.status !== 200) return told(`■ ${reply ? refusal(reply.status, reply.text) : word('login.fault')}`);
  event.target.reset();
  told(`✓ ${word('password.done')}`);
  setTimeout(() => byId('password').close(), SHOWN);
}

// A login of root's files has a password that only root sets.
const form = (isOwn = false, isFirst = false) => make('form', {onsubmit: change},
  make('p', word(!isOwn ? 'password.roots' : isFirst ? 'password.first' : 'password.rule', {n: SHORTEST})),
  ...isOwn ? FIELDS.map(([name, autocomplete]) => make('label', make('span', word(`password.${name}`)), ' ',
    make('input', {name, type: 'password', required: true, autocomplete, minlength: name === 'old' ? undefined : SHORTEST}))) : [],
  make('p', {id: 'password-told', role: 'alert'}),
  make('menu', isOwn && make('button.main', {name: 'change'}, word('password.change')),
    make('button', {type: 'button', onclick: () => byId('password').close()}, word(isFirst ? 'password.later' : 'password.leave'))));

// Who has a first password is asked for another one each time that the page is opened, and goes on without it.
/** @param {Who} who */
export function offerPassword({begun, own, first}) {
  if (!begun) return;
  const place = document.createElement('span'), dialog = document.createElement('dialog');
  byId('log-off').before(place);
  document.body.append(dialog);
  set(dialog, {id: 'password', 'aria-label': word('password.own')});
  put(place, make('button', {id: 'own-password', onclick: () => {
    put(dialog, form(own, first));
    if (!dialog.open) dialog.show();
  }}, word('password.own')));
  if (first) byId('own-password').click();
}
