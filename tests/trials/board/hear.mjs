// How a page hears of the desk, without a browser: what it says to the worker of all pages, that it leaves and comes back, and that it
// takes another worker where one is gone.
import {deepEqual} from 'node:assert/strict';
import {mkdtemp, readFile, rm, writeFile} from 'node:fs/promises';
import {tmpdir} from 'node:os';
import {join} from 'node:path';

const BOARD = new URL('../../../board/', import.meta.url).pathname, folder = await mkdtemp(join(tmpdir(), 'hear')), workers = [], on = {};
const heard = [];
let look, hold, entries = [{nextHopProtocol: 'http/1.1'}, {}];

class Port {
  said = [];
  onmessage = null;
  postMessage(one) { this.said.push(one); }
}
class Shared {
  port = new Port();
  constructor(address, how) { workers.push([address.pathname.split('/').pop(), how.type, this.port]); }
}
class Lone extends Port {
  constructor(address, how) { super(); workers.push([address.pathname.split('/').pop(), how.type, this]); }
  terminate() { this.isEnded = true; }
}
const later = milliseconds => { const now = Date.now(); Date.now = () => now + milliseconds; look(); };
const last = () => workers[workers.length - 1][2], clock = Date.now;
try {
  await writeFile(join(folder, 'package.json'), '{"type":"module"}');
  for (const name of ['shared.js', 'lone.js']) await writeFile(join(folder, name), await readFile(join(BOARD, 'hear.js')));
  Object.defineProperty(globalThis, 'navigator', {value: {locks: {request: (name, granted) => { hold = [name, granted]; }}}});
  Object.defineProperty(globalThis, 'performance', {value: {getEntries: () => entries}});
  Object.assign(globalThis, {window: globalThis, document: {hidden: false}, SharedWorker: Shared, Worker: Lone,
    addEventListener: (name, then) => { on[name] = then; }, setInterval: then => { look = then; }});
  const ask = (await import(join(folder, 'shared.js'))).listen(one => heard.push(one), true);
  ask('agent=7');
  deepEqual(workers, []);
  // once it has the lock, the worker may wait for it
  hold[1]();
  const first = last(), [lock] = hold, says = {asked: 'agent=7', isOwn: true, isShown: true, isNarrow: true, lock};
  deepEqual([workers[0].slice(0, 2), first.said], [['stream.js', 'module'], [says]]);
  document.hidden = true;
  entries = [{nextHopProtocol: 'http/1.1'}, {nextHopProtocol: 'h2'}];
  on.visibilitychange();
  on.pagehide();
  on.pageshow({persisted: false});
  on.pageshow({persisted: true});
  const hidden = {...says, isShown: false, isNarrow: false};
  deepEqual(first.said.slice(1), [hidden, {asked: ''}, hidden]);
  // beats keep it
  for (let beat = 0; beat < 3; beat++) {
    later(10000);
    first.onmessage({data: {kind: 'beat'}});
  }
  deepEqual([workers.length, heard.length], [1, 3]);
  later(16000);
  deepEqual([workers.length, first.said.pop(), first.onmessage, last().said], [2, {asked: ''}, null, [hidden]]);
  last().onmessage({data: {kind: 'lost'}});
  deepEqual(heard.length, 4);
  // a browser without such workers
  delete globalThis.SharedWorker;
  (await import(join(folder, 'lone.js'))).listen(() => {})('begin=0');
  deepEqual(last().said, [{asked: 'begin=0', isOwn: false, isShown: false, isNarrow: false, lock: false}]);
  const lone = last();
  later(16000);
  deepEqual([workers.length, lone.isEnded, last().said], [4, true, [lone.said[0]]]);
} finally {
  Date.now = clock;
  await rm(folder, {recursive: true});
}
