// Reads streams of the gate, each address once for all pages of a browser, and goes on after a loss. A worker, since a browser
// slows down the clock of a hidden page; one for all pages, since over HTTP/1.1 a browser has six connections for all of them.
import {base, pause, sleep} from './net.js';

// milliseconds: without a line it is lost; between two beats, unless the machine slept; until a page asks again, and one
// that had to give way to others
const SILENT = 8000, SLEPT = 5000, AGAIN = 200, GAVE_WAY = 60000;
// streams: of a browser over HTTP/1.1, of whose six connections some are for requests; and of a login
const FEW = 4, MOST = 8;
// the one that answered last comes first: an older nginx.conf has no line for /stream, and asks the desk, or refuses who may not read that
const routes = ['/stream', '/mine?stream'];
/** @type {Map<Port, Page>} */ const pages = new Map();
/** @type {Map<string, Stream>} */ const streams = new Map();
let beaten = Date.now(), said = 0;
const scope = /** @type {any} */ (globalThis), isShared = 'onconnect' in scope;

class Stream {
  number = '';
  losses = 0;
  heard = Date.now();
  isOver = false;
  giving = new AbortController();
  // the server's clock less this one's, in milliseconds, by the last few events: each came later than it was sent
  /** @type {number[]} */ clocks = [];

  constructor(asked = '') {
    this.asked = asked;
    this.run();
  }

  async run() { while (!this.isOver) await this.listen(); }

  end() {
    this.isOver = true;
    this.giving.abort();
  }

  /** @param {Heard} one */
  send(one) { for (const [port, {asked}] of pages) if (asked === this.asked) port.postMessage(one); }

  lose(status = 0, text = '', wait = pause(this.losses++)) {
    if (!this.isOver) this.send({kind: 'lost', status, text});
    return sleep(wait);
  }

  async ask(place = 0) {
    const address = `${routes[place]}${routes[place].includes('?') ? '&' : '?'}${this.asked}&after=${this.number}`;
    return fetch(base + address, {cache: 'no-store', signal: this.giving.signal});
  }

  async reply() {
    const first = await this.ask();
    if (first.status !== 403 && first.status !== 404) return first;
    // unread it would keep its connection
    await first.text();
    const second = await this.ask(1);
    if (second.status === 200) routes.reverse();
    return second;
  }

  async listen() {
    const giving = this.giving = new AbortController();
    this.heard = Date.now();
    this.clocks = [];
    try {
      const reply = await this.reply();
      if (reply.status !== 200 || !reply.body) return await this.lose(reply.status, await reply.text());
      // one that just ends is asked for again at once
      if (await this.read(reply.body) === 'streams') await this.lose(0, 'streams', GAVE_WAY); else await sleep(AGAIN);
    } catch { await this.lose(0, giving.signal.aborted ? 'silent' : 'server'); }
  }

  /** @param {ReadableStream<Uint8Array>} body @returns {Promise<string>} why it ended */
  async read(body) {
    const reader = body.pipeThrough(new TextDecoderStream()).getReader();
    for (let text = '', why = ''; ;) {
      const {done, value} = await reader.read();
      if (done) return why;
      this.heard = Date.now();
      const events = (text + value).split('\n\n');
      text = events.pop() ?? '';
      for (const one of events) why = this.take(one) ?? why;
    }
  }

  /** @param {string} text an event */
  take(text) {
    const parted = (line = '') => [line.slice(0, line.indexOf(': ')), line.slice(line.indexOf(': ') + 2)];
    const lines = Object.fromEntries(text.split('\n').map(line => parted(line))), told = JSON.parse(lines.data);
    if (lines.event === 'end') return told.why;
    this.number = lines.id ?? this.number;
    this.clocks = [...this.clocks.slice(-3), 1000 * told.clock - Date.now()];
    this.losses = 0;
    this.send({kind: lines.event === 'picture' ? 'picture' : 'change', told, asked: this.asked, ahead: Math.max(...this.clocks),
      received: Date.now()});
  }
}

function end(asked = '') {
  streams.get(asked)?.end();
  streams.delete(asked);
}

// Opens what there is room for: an agent's own page comes first, then what is shown, then what was shown last. A worker of
// one page knows of no others: over HTTP/1.1 it reads while the page is shown.
function settle() {
  const ranked = [...pages.values()].filter(page => isShared || page.isOwn || page.isShown || !page.isNarrow).sort((one, other) =>
    Number(other.isOwn) - Number(one.isOwn) || Number(other.isShown) - Number(one.isShown) || other.said - one.said);
  const room = ranked.some(page => page.isNarrow) ? FEW : MOST, open = [...new Set(ranked.map(page => page.asked))].slice(0, room);
  for (const asked of [...streams.keys()]) if (!open.includes(asked)) end(asked);
  for (const asked of open) if (!streams.has(asked)) streams.set(asked, new Stream(asked));
  for (const [port, {asked}] of pages) if (!open.includes(asked)) port.postMessage({kind: 'lost', status: 0, text: 'hidden'});
}

/** @param {Port} port */
function leave(port) {
  pages.delete(port);
  settle();
}

// A page says what it asks for, and nothing where it leaves. It holds a lock as long as it is there, so that one that just ends leaves too.
/** @param {Port} port */
function serve(port) {
  port.onmessage = ({data}) => {
    const before = pages.get(port);
    if (!data.asked) return leave(port);
    if (!before && data.lock) navigator.locks.request(data.lock, () => leave(port));
    // who comes anew gets a picture, and so do all of its address
    if (before?.asked !== data.asked) end(data.asked);
    pages.set(port, {...data, said: ++said});
    settle();
  };
}

setInterval(() => {
  const now = Date.now(), slept = now - beaten > SLEPT;
  for (const stream of streams.values()) if (slept || now - stream.heard > SILENT) stream.giving.abort();
  beaten = now;
  for (const port of pages.keys()) port.postMessage({kind: 'beat'});
}, 1000);

if (isShared) scope.onconnect = (/** @type {MessageEvent} */ {ports: [port]}) => serve(port); else serve(scope);
