// The calls at the agent's station: who calls, the services, and the signs of an offer.
import {customerFile} from '../customer.js';
import {byId, make, put} from '../draw.js';
import {isHeard, notify, tone} from '../sound.js';
import {clock, CONNECTION, office, word} from '../words.js';
import {isOutside, ringLeft, services, sideOf} from './mine.js';

// in their order, with their keys: before the seventh the field for a place, the last one apart
const SERVICES = {
  answerCall: 'F2', rejectCall: 'F8', back: 'F8', phoneOffHook: '', holdCall: '', retrieveCall: '', singleStepTransfer: '', deflectCall: '',
  clearConnection: '',
};
/** @type {Notification|undefined} */ let shown;
let rings = '', beats = 0;

/** @type {Say} */
export const say = (key, values) => word(`agent.${key}`, values);
/** @param {...unknown} parts */
export const joined = (...parts) => parts.filter(Boolean).join(' · ');

export const ringsHere = () => byId('tone').checked;

/** @param {DrawnCalls} drawn */
export function drawCalls(drawn) {
  const list = byId('calls'), focused = list.contains(document.activeElement);
  put(list, ...drawn.mine.calls.map(call => card(drawn, call)));
  // a button that vanishes leaves the focus here
  if (focused && !/** @type {any} */ (document.activeElement)?.offsetParent) (list.querySelector('li') ?? list).focus();
}

/** @type {Card} */
const card = ({mine, now, acts, off, who: nameOf, group, act}, call) => {
  const here = sideOf(mine, call), number = `${call.call}`;
  if (!here) return false;
  const may = acts ? services(mine, call) : new Set(), dials = call.caller === here.device, other = dials ? call.called : call.caller;
  const who = other ?? number, left = ringLeft(mine, here, now) ?? 0, {sign, words} = CONNECTION[here.state];
  const buttons = Object.entries(SERVICES).map(([service, key]) => {
    const what = say(service);
    return make('button', {
      class: service === 'answerCall' && 'main', 'data-service': service, 'aria-keyshortcuts': key || false,
      hidden: !may.has(service), disabled: off.has(`${service} ${number}`), 'aria-label': say('button', {what, who}),
      onclick: ({currentTarget}) => {
        const typed = currentTarget.parentElement.querySelector('input');
        act(service, {call: call.call, key: `${number} ${here.since}`, back: call.back}, who, typed);
      },
    }, what, key && ' ', key && make('kbd', key));
  });
  const place = make('input', {
    list: 'destinations', 'aria-label': say('to'), placeholder: say('to'), autocomplete: 'off', spellcheck: 'false',
    hidden: !may.has('singleStepTransfer') && !may.has('deflectCall'),
    onkeydown: ({key, target}) => {
      if (key === 'Enter') target.parentElement.querySelector('input ~ button:not([hidden], [data-service=clearConnection])')?.click();
    },
  });
  const from = here.group ? group(here.group) : joined(say(dials ? 'byYou' : 'direct'), here.sent && group(here.sent));
  const waited = call.queued && here.state === 'alerting' && say('hasWaited', {clock: clock(now - call.queued)});
  const rings = left > 0 && say('ringsFor', {clock: clock(left)}), lift = here.state === 'initiated' && !ringsHere() && say('lift');
  const file = !dials && isOutside(mine, call) ? customerFile(office.customer, call.caller) : undefined;
  return make('li', {'data-key': number, tabindex: -1, 'data-state': here.state},
    make('p.line', `${sign} ${words} ${clock(now - here.since)} · ${from}`),
    make('p.number', other ? nameOf(other) : '…'),
    // in a tab of its own, which knows nothing of this one
    file && make('p.customer', make('a', {href: file, target: '_blank', rel: 'noopener noreferrer'}, say('customer'))),
    make('p.soft', joined(waited, rings, lift, word('agents.call', {call: number}))),
    make('div.buttons', ...buttons.slice(0, 6), place, ...buttons.slice(6)));
};

addEventListener('keydown', event => {
  if (!/^F[28]$/.test(event.key) || event.altKey || event.ctrlKey || event.metaKey || event.shiftKey) return;
  event.preventDefault();
  if (!event.repeat) byId('calls').querySelector(`[aria-keyshortcuts=${event.key}]:not([hidden])`)?.click();
});

// It sounds in every second second.
export function beat() { if (rings && beats++ % 2 === 0 && ringsHere() && isHeard()) tone(); }

/** @param {Offer} offer what rings now */
export function ring({key, title, words} = {key: '', title: '', words: ''}) {
  if (rings === key) return;
  rings = key;
  shown?.close();
  put('ring', key && say('rings', {what: title}));
  beats = 0;
  beat();
  if (!key || document.hasFocus()) return;
  const notice = shown = notify(`◆ ${title}`, {body: words, tag: 'acd-ring', requireInteraction: true});
  if (notice) notice.onclick = () => { focus(); notice.close(); };
}
