// Why the agent isn't ready, and what a call was about: chosen of the office's lists, and kept by the gate. The desk
// knows nothing of it, and nothing of it is in the way of another state.
import {byId, make, put, set} from '../draw.js';
import * as net from '../net.js';
import {clock, office, refusal, word} from '../words.js';
import {joined, say} from './calls.js';

// milliseconds between two tries, how many there are, and seconds for which it is asked what a call was about
const AGAIN = 1000, TRIES = 5, RECENT = 900;
export const hasCodes = Object.keys(office.codes).length > 0, hasReasons = Object.keys(office.reasons).length > 0;
// the second one where an older nginx.conf has no line for the first
const routes = ['/reasons', '/session?reasons'];

export const codeName = (code = '') => office.codes[code] ?? code;

/** @param {object} body */
async function post(body) {
  const how = {method: 'POST', body: JSON.stringify(body), headers: {'content-type': 'application/json'}};
  const first = await net.ask(routes[0], how);
  if (![403, 404, 405].includes(first.status)) return first;
  const second = await net.ask(routes[1], how);
  if (second.status === 200) routes.reverse();
  return second;
}

// The last call, as long as none is here: in after-call work, and later until somebody said what it was about.
/** @param {Mine} mine @returns {GivenCall|undefined} */
function asked({agent, calls, given}, now = 0) {
  const last = given?.calls.at(-1);
  if (!last?.group || calls.length || now - last.moment - last.talked > RECENT) return;
  return agent.state === 'workingAfterCall' || !last.code ? last : undefined;
}

export class Reasons {
  // whether it asks why before the desk is asked, and what is given once the desk has granted it
  asks = false;
  wanted = '';
  // what is being sent
  out = '';

  /** @param {GivingPage} page */
  constructor(page) { this.page = page; }

  // Whether the desk isn't asked yet, since it is asked why first. A second click asks the desk without a reason, where
  // none has to be.
  begins(requested = '', /** @type {Mine} */ mine) {
    const asks = requested === 'notReady' && Boolean(mine.given) && hasReasons;
    const begins = asks && (!this.asks || office.requireReason);
    this.wanted = '';
    this.asks = begins;
    if (begins) {
      this.page.draw();
      byId('reasons').querySelector('button')?.focus();
    }
    return begins;
  }

  // What became of the request for not ready.
  told(kind = '', key = '') {
    if (key !== 'notReady' || kind !== 'done' && kind !== 'refused') return;
    const reason = this.wanted;
    this.wanted = '';
    if (kind === 'done' && reason) void this.give({reason}, office.reasons[reason]);
  }

  /** @param {GivenBody} body */
  async give(body, words = '') {
    const key = JSON.stringify(body);
    if (this.out === key) return;
    this.out = key;
    this.page.draw();
    for (let tried = 0; tried < TRIES; tried++) {
      const reply = await post({agent: this.page.id(), ...body}).catch(() => null);
      if (reply && ![429, 502, 503, 504].includes(reply.status)) {
        if (reply.status !== 200) this.page.refuse(`${words}: ${refusal(reply.status, reply.text)}`);
        return this.ends();
      }
      await net.sleep(AGAIN);
    }
    this.page.refuse(say('notKept', {what: words}));
    this.ends();
  }

  ends() {
    this.out = '';
    this.page.draw();
  }

  draw(/** @type {Mine} */ mine, may = false, now = 0) {
    const {agent: {state, pending, device}, given} = mine, isOff = state === 'notReady' || pending === 'notReady';
    if (isOff || !device) this.asks = false;
    const asks = Boolean(may && given && device && (isOff || this.asks)) && hasReasons;
    const call = may && hasCodes ? asked(mine, now) : undefined;
    set('reasons', {hidden: !asks, 'data-severity': office.requireReason && !given?.reason && 'long'});
    set('codes', {hidden: !call});
    set('not-the-desks', {hidden: !asks && !call});
    if (asks) this.drawReasons(given?.reason ?? '', isOff);
    if (call) this.drawCodes(call);
  }

  // Before the desk is asked a choice asks it, and then it changes what was said.
  drawReasons(has = '', isOff = false) {
    const take = (reason = '') => {
      if (isOff) return void this.give({reason}, office.reasons[reason] ?? say('reason.none'));
      this.asks = false;
      this.wanted = reason;
      this.page.ask('notReady');
    };
    const leave = () => { this.asks = false; this.page.draw(); };
    const buttons = Object.entries(office.reasons).map(([reason, words]) => make('button', {
      'data-reason': reason, 'aria-pressed': `${isOff && has === reason}`, onclick: () => { if (!isOff || has !== reason) take(reason); },
    }, words));
    const none = !office.requireReason && (!isOff || has !== '');
    put('reasons', make('b', say('why')), ...buttons,
      none && make('button', {'data-reason': '', onclick: () => take()}, say('reason.none')),
      !isOff && make('button', {'data-reason': 'leave', onclick: leave}, word('act.no')));
  }

  /** @param {GivenCall} last */
  drawCodes({call, moment, talked, caller, group, code: has}) {
    const about = joined(caller && this.page.who(caller), group && this.page.group(group), clock(talked));
    const buttons = Object.entries(office.codes).map(([code, words]) => make('button', {
      'data-code': code, 'aria-pressed': `${has === code}`,
      onclick: () => void this.give({call, talk: moment, code: has === code ? '' : code}, words),
    }, words));
    put('codes', make('b', say('about')), make('span', about), ...buttons);
  }
}
