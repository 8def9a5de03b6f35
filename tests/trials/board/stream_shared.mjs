// The same reader for many pages, without a browser: each address is read once for all of its pages, over HTTP/1.1 four at most, and who is
// hidden gives way to who is shown.
import {deepEqual, ok} from 'node:assert/strict';
import {createServer} from 'node:http';
import {mkdtemp, readFile, rm, writeFile} from 'node:fs/promises';
import {tmpdir} from 'node:os';
import {join} from 'node:path';

const BOARD = new URL('../../../board/', import.meta.url).pathname, folder = await mkdtemp(join(tmpdir(), 'shared')), open = new Set();
const locks = new Map(), signals = new Set();
let asked = 0, most = 0;
const server = createServer((request, reply) => {
  const what = new URL(request.url, 'http://desk').searchParams.get('begin');
  asked++;
  open.add(what);
  request.socket.on('close', () => open.delete(what));
  reply.writeHead(200, {connection: 'close'});
  reply.write(`event: picture\nid: 1-1-${asked}\ndata: {"clock":1,"live":true}\n\n`);
});
await new Promise(done => server.listen(0, '127.0.0.1', done));
const until = async (holds, say = () => '') => {
  for (let end = Date.now() + 20000; !holds() && Date.now() < end;) await new Promise(done => setTimeout(done, 20));
  ok(holds(), `${say()} ${holds}`);
};
const opened = async (...wanted) => {
  await until(() => String([...open].sort()) === String(wanted.map(String)), () => `${[...open].sort()}, not ${wanted}:`);
};

/** A page at its port. */
class Page {
  pictures = 0;
  beats = 0;
  lost = [];
  constructor(what, how) {
    this.port = {onmessage: null, postMessage: heard => {
      this.pictures += heard.kind === 'picture';
      this.beats += heard.kind === 'beat';
      if (heard.kind === 'lost') this.lost.push(heard.text);
    }};
    globalThis.onconnect({ports: [this.port]});
    this.how = {asked: `begin=${what}`, isOwn: false, isShown: true, isNarrow: true, lock: `page ${what} ${Math.random()}`, ...how};
    this.say();
  }

  say(how) { this.port.onmessage({data: Object.assign(this.how, how)}); }
  leave() { this.port.onmessage({data: {asked: ''}}); }
}

try {
  await writeFile(join(folder, 'package.json'), '{"type":"module"}');
  for (const file of ['net.js', 'stream.js']) await writeFile(join(folder, file), await readFile(join(BOARD, file)));
  const {fetch} = globalThis, counted = (address, how) => {
    signals.add(how.signal);
    most = Math.max(most, [...signals].filter(({aborted}) => !aborted).length);
    return fetch(address, how);
  };
  Object.assign(globalThis, {location: {origin: `http://127.0.0.1:${server.address().port}`}, onconnect: null, fetch: counted});
  Object.defineProperty(globalThis, 'navigator', {value: {locks: {request: (name, granted) => locks.set(name, granted)}}});
  await import(join(folder, 'stream.js'));
  // one address for two pages, of which the second one gets a picture too
  const first = new Page(1);
  await until(() => first.pictures === 1);
  const same = new Page(1);
  await until(() => same.pictures === 1);
  deepEqual([asked, first.pictures], [2, 2]);
  await opened(1);
  await until(() => first.beats && same.beats);
  // what is shown later comes first; an agent's own page before all
  const own = new Page(2, {isOwn: true, isShown: false}), more = [3, 4, 5].map(what => new Page(what));
  await opened(2, 3, 4, 5);
  deepEqual([first.lost, same.lost, more.map(({lost}) => lost.length)], [['hidden'], ['hidden'], [0, 0, 0]]);
  more[0].say({isShown: false});
  await opened(1, 2, 4, 5);
  await until(() => first.pictures === 3 && same.pictures === 2);
  deepEqual(more[0].lost, ['hidden']);
  more[0].say({isShown: true});
  await opened(2, 3, 4, 5);
  await until(() => more[0].pictures === 2);
  // one that leaves, one that just ends, and one that asks for something else
  more[1].leave();
  await opened(1, 2, 3, 5);
  await locks.get(more[2].how.lock)();
  await opened(1, 2, 3);
  more[0].say({asked: 'begin=6'});
  await opened(1, 2, 6);
  first.leave();
  await opened(1, 2, 6);
  same.leave();
  await opened(2, 6);
  deepEqual([most, own.pictures, own.lost], [4, 1, []]);
  // over HTTP/2 as many as a login has
  for (const one of [own, more[0]]) one.say({isNarrow: false});
  for (let what = 10; what < 20; what++) new Page(what, {isNarrow: false, isShown: what % 2 === 0});
  await opened(10, 12, 14, 16, 18, 19, 2, 6);
} finally {
  server.closeAllConnections();
  server.close();
  await rm(folder, {recursive: true});
}
process.exit(0);
