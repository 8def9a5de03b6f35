// The page of log-in without a browser: where the gate has no room it sends the form again by itself, later each time, and then goes on.
import {deepEqual, ok} from 'node:assert/strict';
import {mkdir, mkdtemp, readFile, rm, writeFile} from 'node:fs/promises';
import {tmpdir} from 'node:os';
import {join} from 'node:path';

const BOARD = new URL('../../../board/', import.meta.url).pathname, folder = await mkdtemp(join(tmpdir(), 'login')), told = [429, 429, 200];
await mkdir(join(folder, 'login'));
await writeFile(join(folder, 'package.json'), '{"type":"module"}');
for (const file of ['net.js', 'login/login.js']) await writeFile(join(folder, file), await readFile(join(BOARD, file)));
await writeFile(join(folder, 'draw.js'),
  `export const shown = [], on = {}, byId = () => ({}), put = (id, text) => shown.push(text);
  export const set = (id, what) => Object.assign(on, what);`);
await writeFile(join(folder, 'words.js'), 'export const translate = () => {}, word = key => key;');
try {
  const bodies = [], moments = [], gone = [];
  Object.assign(globalThis, {
    location: {origin: 'https://desk', search: '', hash: '', replace: to => gone.push(to)}, document: {},
    FormData: class { * [Symbol.iterator]() { yield* [['login', 'ana'], ['password', 'secret']]; } },
    fetch: async (url, how) => {
      if (url.endsWith('/session')) return new Response('', {status: 401});
      bodies.push(String(how.body));
      moments.push(Date.now());
      return new Response('{"role":"supervisor"}', {status: told[bodies.length - 1]});
    },
  });
  await import(join(folder, 'login/login.js'));
  const {shown, on} = await import(join(folder, 'draw.js'));
  await on.onsubmit({preventDefault() {}});
  deepEqual([bodies, gone, shown],
    [Array(3).fill('login=ana&password=secret'), ['https://desk/board/'], ['', 'login.again', 'login.again']]);
  ok(moments[1] - moments[0] >= 700 && moments[2] - moments[1] >= 1400, String(moments));
} finally { await rm(folder, {recursive: true}); }
