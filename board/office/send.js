// What the office's page asks for. The same act is the same bytes until it has an answer, so that it is done once.
import * as net from '../net.js';

const AGAIN = 1000, TRIES = 6, PLAN = '/office/plan';
// nobody has done it: the proxy or the gate has no room, or the desk doesn't answer
const LATER = [429, 502, 503, 504];

export class Sender {
  invoke = 0;
  /** @type {Map<string, string>} */ sent = new Map();

  constructor(login = '') { this.requester = net.requesterOf(login); }

  // The reply; nothing where none came.
  /** @param {object} members @returns {Promise<Replied>} */
  async send(path = '', members) {
    const what = JSON.stringify([path, members]), body = this.sent.get(what) ?? JSON.stringify({...this.key(path), ...members});
    this.sent.set(what, body);
    for (let tried = 0; tried < TRIES; tried++) {
      const reply = await net.ask(path, {method: 'POST', body, headers: {'content-type': 'application/json'}}).catch(() => null);
      if (reply && !LATER.includes(reply.status)) {
        this.sent.delete(what);
        return reply;
      }
      await net.sleep(AGAIN);
    }
    return null;
  }

  key(path = '') { return path === PLAN ? {requester: this.requester, invoke: ++this.invoke} : {key: crypto.randomUUID()}; }

  /** @param {object} request of the plan */
  plan(request) { return this.send(PLAN, request); }
}
