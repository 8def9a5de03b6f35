// Sends requests in turn. One without an answer is kept in the browser and sent again as it is, for a minute of the same
// log-on; then the page asks.
import {pause, post, requesterOf, sleep} from '../net.js';
import {refusal, word} from '../words.js';

// milliseconds of all tries, by which a clock may be set back, until a result is seen
const RECENT = 60000, BACK = 5000, SETTLES = 1000;

export class Requests {
  invoke = 0;
  turn = Promise.resolve();
  // what was clicked and has no answer
  /** @type {Set<string>} */ out = new Set();

  /** @param {Asking} page */
  constructor(agent = '', login = '', page) {
    this.place = `acd-unanswered-${agent} `;
    this.page = page;
    this.requester = requesterOf(login);
  }

  // what an earlier load of the page kept
  takeUp() {
    for (const place of Object.keys(localStorage).filter(place => place.startsWith(this.place)).sort()) {
      try { this.queue(place, JSON.parse(localStorage[place])); } catch { localStorage.removeItem(place); }
    }
  }

  /** @type {Send} */
  send = (service, members, words, key) => {
    if (!this.out.has(key)) this.keep(`${this.place}${Date.now()} ${this.requester} ${++this.invoke}`,
      {body: JSON.stringify({requester: this.requester, invoke: this.invoke, service, ...members}), words, key});
  };

  /** @type {Keep} */
  keep = (place, one) => {
    const now = {...one, at: Date.now(), logOn: this.page.logOn()};
    localStorage[place] = JSON.stringify(now);
    this.queue(place, now);
  };

  /** @type {Keep} */
  queue = (place, one) => {
    const {key = ''} = one;
    this.out.add(key);
    this.turn = this.turn.then(() => this.deliver(place, one)).catch(() => {})
      .then(() => { setTimeout(() => this.out.delete(key), SETTLES); });
  };

  /** @param {Kept} one */
  isRecent({at = 0, logOn}) { return Date.now() - at < RECENT && at - Date.now() < BACK && logOn === this.page.logOn(); }

  /** @param {Kept} one */
  async deliver(place = '', one) {
    for (let times = 0; this.isRecent(one); times++) {
      if (!times) this.page.show({kind: 'sent', words: one.words});
      const reply = await post(one.body);
      if (reply) {
        localStorage.removeItem(place);
        return this.answered(one, reply.status, reply.text);
      }
      this.page.show({kind: 'waits', words: word('agent.again', {what: one.words})});
      await sleep(pause(times));
      // which log-on it is, is known where the desk answers
      while (!this.page.isLive() && this.isRecent(one)) await sleep(SETTLES);
    }
    this.page.ask(one, sends => {
      localStorage.removeItem(place);
      if (sends) this.keep(place, one);
    });
  }

  /** @param {Kept} one */
  answered({body, words, key}, status = 0, text = '') {
    // a gate takes a login's requesters only
    if (status === 403 && !body.includes(this.requester)) return this.page.show({kind: 'dropped', words});
    this.page.show(status === 200 ? {kind: 'done', words, key, result: JSON.parse(text).result}
      : {kind: 'refused', key, words: `${words}: ${refusal(status, text)}`});
  }
}
