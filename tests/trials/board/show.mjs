// What tests/trials/show-board does.
import {existsSync} from 'node:fs';
import {mkdtemp, rm} from 'node:fs/promises';
import {join, resolve} from 'node:path';
import {parseArgs} from 'node:util';
import {portFault} from './browser.mjs';
import {aDay, Desk, Front, missing, TOP} from './desk.mjs';
import {people} from './page.mjs';
import {pictures, records} from './pictures.mjs';

const NEEDED = {nginx: 'nginx-light', openssl: 'openssl', curl: 'curl', python3: 'python3'};
const MODULES = {aiohttp: 'python3-aiohttp', passlib: 'python3-passlib'};

function read(words) {
  try {
    const {values, positionals} = parseArgs({args: words, options: {port: {type: 'string', default: '8443'}, pictures: {type: 'string'}},
      allowPositionals: true});
    if (/^[1-9][0-9]{0,4}$/.test(values.port) && Number(values.port) <= 65535 && positionals.length < 2) {
      return [resolve(positionals[0] ?? join(TOP, 'release/acd')), Number(values.port), values.pictures];
    }
  } catch {}
  throw new Error('usage: tests/trials/show-board [PROGRAM] [--port P] [--pictures FOLDER]');
}

/** The program and the port, once all is there that they take: a day takes a minute to make. */
async function given(words) {
  const [program, port, folder] = read(words);
  const without = missing(NEEDED, MODULES);
  if (without) throw new Error(without);
  if (!existsSync(program)) throw new Error(`there is no program ${program}`);
  const fault = await portFault(port);
  if (fault) throw new Error(`port ${port} ${fault}: take another one by --port P`);
  return {program, port, into: folder};
}

export async function main(words) {
  const {program, port, into} = await given(words);
  const folder = await mkdtemp(join(existsSync('/dev/shm') ? '/dev/shm' : '/tmp', 'show-board-'));
  const desk = await Desk.make(program, join(folder, 'day.db')), ends = [];
  const end = async status => {
    for (const one of ends.reverse()) await one();
    await rm(folder, {recursive: true, force: true});
    process.exit(status);
  };
  for (const signal of ['SIGINT', 'SIGTERM']) process.on(signal, () => end(0));
  try {
    console.log('A day is made, which takes a minute ..');
    await desk.feed(await aDay(3, '--groups', 12, '--agents', 60));
    ends.push(() => desk.stop());
    await desk.serve();
    const front = await Front.start(folder, desk,
      [['sup', 'supervisor'], ['planner', 'office'], ['ana', 'agent', '1'], ['ben', 'agent', '2']], {port});
    ends.push(() => front.stop());
    await records(join(front.file, 'records'), desk);
    const folks = people(desk, 12);
    ends.push(() => folks.end());
    if (into) {
      await pictures(front, desk, folks, resolve(into));
      await end(0);
    }
    console.log(`The board:        ${front.address}/board/         name sup, password secret
Records:          ${front.address}/board/records/ name planner, password secret
An agent's page:  ${front.address}/board/agent/   name ana or ben, password secret
The certificate was made just now, so a browser asks whether to trust it. Ctrl-C ends all of it.`);
  } catch (error) {
    console.error(`tests/trials/show-board: ${error.message}`);
    await end(1);
  }
}
