// The pages' reader of a stream without a browser: it says so where nothing comes any more, goes on from its number, hears of a refusal,
// begins anew where something else is
// asked for, and asks at the older address where nginx has no line for the new one.
import {deepEqual, ok} from 'node:assert/strict';
import {createServer} from 'node:http';
import {mkdtemp, readFile, rm, writeFile} from 'node:fs/promises';
import {tmpdir} from 'node:os';
import {join} from 'node:path';

const BOARD = new URL('../../../board/', import.meta.url).pathname, folder = await mkdtemp(join(tmpdir(), 'stream')), asked = [], told = [];
let closed = 0;
const event = (kind, number, members) => {
  const data = {answered: 1, clock: Date.now() / 1000 + 60, live: true, ...members};
  return `event: ${kind}\n${number ? `id: ${number}\n` : ''}data: ${JSON.stringify(data)}\n\n`;
};
const answers = [
  // in two parts, and then nothing, and nobody closes it
  reply => {
    const text = event('picture', '1-1-5', {agents: {7: {name: 'Änne'}}});
    reply.writeHead(200);
    reply.write(text.slice(0, 40));
    setTimeout(() => reply.write(text.slice(40)), 100);
  },
  reply => {
    reply.writeHead(200);
    reply.write(event('change', '1-1-6', {calls: {5: null}}) + event('beat', '', {}));
    reply.end('event: end\ndata: {"why":"rights"}\n\n');
  },
  reply => reply.writeHead(401).end('no'),
  reply => { reply.writeHead(200); reply.write(event('change', '1-1-7', {})); },
  reply => { reply.writeHead(200); reply.end(event('picture', '1-2-8', {})); },
  // an nginx.conf of before, by the rights of who reads all of the desk, and of who doesn't
  reply => reply.writeHead(404).end('none'),
  reply => reply.writeHead(403).end('both refuse'),
  reply => reply.writeHead(403).end('no'),
  reply => { reply.writeHead(200); reply.end(event('change', '1-2-9', {})); },
  reply => { reply.writeHead(200); reply.write(event('change', '1-2-10', {})); reply.on('close', () => closed++); },
  reply => { reply.writeHead(200); reply.write(event('picture', '1-2-11', {})); },
];
const server = createServer((request, reply) => {
  asked.push([request.url, Date.now()]);
  (answers[asked.length - 1] ?? (() => {}))(reply);
});
await new Promise(done => server.listen(0, '127.0.0.1', done));
const until = async holds => {
  for (let end = Date.now() + 30000; !holds() && Date.now() < end;) await new Promise(done => setTimeout(done, 50));
  ok(holds(), JSON.stringify([asked, told]));
};
try {
  await writeFile(join(folder, 'package.json'), '{"type":"module"}');
  for (const file of ['net.js', 'stream.js']) await writeFile(join(folder, file), await readFile(join(BOARD, file)));
  Object.assign(globalThis,
    {location: {origin: `http://127.0.0.1:${server.address().port}`}, onmessage: null,
      postMessage: heard => heard.kind === 'beat' || told.push(heard)});
  await import(join(folder, 'stream.js'));
  const say = (what, how) => globalThis.onmessage({data: {asked: what, isShown: true, isOwn: false, isNarrow: false, lock: false, ...how}});
  say('agent=7');
  await until(() => asked.length === 2);
  const [first, lost] = told;
  deepEqual([first.kind, first.told.agents, first.asked, lost],
    ['picture', {7: {name: 'Änne'}}, 'agent=7', {kind: 'lost', status: 0, text: 'silent'}]);
  ok(Math.abs(first.ahead - 60000) < 10000, String(first.ahead));
  ok(asked[1][1] - asked[0][1] < 12000, 'it asks again soon after nothing came for eight seconds');
  await until(() => asked.length === 4);
  deepEqual(told.slice(2).filter(({kind}) => kind !== 'lost').slice(0, 2).map(({kind, told: {calls}}) => [kind, calls]),
    [['change', {5: null}], ['change', undefined]]);
  deepEqual(told.filter(({kind}) => kind === 'lost').map(({status, text}) => [status, text]), [[0, 'silent'], [401, 'no']]);
  ok(asked[2][1] - asked[1][1] < 2000, 'where a stream ends it asks again at once');
  await until(() => told[told.length - 1].told);
  say('agent=7');   // shown or hidden, it stays
  say('begin=0');
  await until(() => asked.length === 10 && told.filter(one => one.kind === 'change' && one.asked === 'begin=0').length === 2);
  deepEqual(told.slice(-4).map(({kind, asked: what, status, text}) => what ? [kind, what] : [kind, status, text]),
    [['picture', 'begin=0'], ['lost', 403, 'both refuse'], ['change', 'begin=0'], ['change', 'begin=0']]);
  deepEqual(asked.map(([url]) => url),
    ['/stream?agent=7&after=', '/stream?agent=7&after=1-1-5', '/stream?agent=7&after=1-1-6', '/stream?agent=7&after=1-1-6',
      '/stream?begin=0&after=', '/stream?begin=0&after=1-2-8', '/mine?stream&begin=0&after=1-2-8', '/stream?begin=0&after=1-2-8',
      '/mine?stream&begin=0&after=1-2-8', '/mine?stream&begin=0&after=1-2-9']);
  // where each page has a worker of its own, and few connections, one that is hidden has no stream, unless it is an agent's own
  say('begin=0', {isNarrow: true, isOwn: true, isShown: false});
  await new Promise(done => setTimeout(done, 300));
  deepEqual([closed, asked.length], [0, 10]);
  say('begin=0', {isNarrow: true, isShown: false});
  await until(() => closed === 1);
  deepEqual(told[told.length - 1], {kind: 'lost', status: 0, text: 'hidden'});
  say('begin=0', {isNarrow: true});
  await until(() => told[told.length - 1].kind === 'picture');
  deepEqual(asked[10][0], '/mine?stream&begin=0&after=');
} finally {
  server.closeAllConnections();
  server.close();
  await rm(folder, {recursive: true});
}
process.exit(0);
