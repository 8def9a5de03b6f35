// What tests/trials/try-board does, in its order.
import {execFileSync, spawnSync} from 'node:child_process';
import {readdirSync, readFileSync} from 'node:fs';
import {cp, mkdir, mkdtemp, rm, writeFile} from 'node:fs/promises';
import {existsSync} from 'node:fs';
import {createServer} from 'node:net';
import {join, resolve} from 'node:path';
import {pathToFileURL} from 'node:url';
import {gzipSync} from 'node:zlib';
import {Browser, sleep} from './browser.mjs';
import {aDay, Desk, Front, missing, run, TOP} from './desk.mjs';
import {buttons} from './buttons.mjs';
import {addresses, customers} from './customer.mjs';
import {full} from './full.mjs';
import {alarms, nothing, troubles} from './alarms.mjs';
import {days, overMidnight, zones} from './days.mjs';
import {lead, office, session} from './lead.mjs';
import {lines} from './lines.mjs';
import {office as officesPage, tables} from './office.mjs';
import {alarm, clockAhead, gone, hangs, live, looks, losses, numbers, ownEvents, people, settings, still, ways} from './page.mjs';
import {records} from './records.mjs';
import {shape} from './shape.mjs';
import {callers, sheets} from './sheets.mjs';
import {olderConf, tenTabs} from './tabs.mjs';
import {words} from './words.mjs';
import {agentsPage} from './agent.mjs';
import {reasons, ROLES as OF_AGENTS} from './reasons.mjs';
import {PLAN} from './shift.mjs';

const NEEDED = {chromedriver: 'chromium-driver', chromium: 'chromium', nginx: 'nginx-light', tsc: 'node-typescript', openssl: 'openssl',
  curl: 'curl', python3: 'python3'};
const PARTS = ['files', 'gate', 'show', 'lines', 'buttons', 'board', 'alarms', 'words', 'shape', 'days', 'lead', 'records', 'customer',
  'agent', 'reasons', 'office', 'tabs', 'full'];
const MOST_CALLS = 2000, ROUNDS = 50;
const ROLES = [['pbx', 'exchange'], ['planner', 'office'], ['sup', 'supervisor'], ['ana', 'agent', '7'], ['lea', 'lead', 'groups=101,102']];
// an agent who may look at boards too, so that one session does for both
const READS_ALL = [['ana', 'agent', 'agent=7', 'reads=all']];

class Trial {
  constructor(program, folder, pictures) { Object.assign(this, {program, folder, pictures, tried: 0, wrong: 0, missed: 0, ends: []}); }

  see = (what, good, told = '') => {
    this.tried++;
    if (good) return;
    this.wrong++;
    console.log(`WRONG ${what}: ${told}`);
  };

  /** A figure that depends on the machine: told with the load at that time, and counted apart. */
  figure = (what, value, good, wanted, load) => {
    if (!good) this.missed++;
    console.log(`    ${what}: ${value} (${wanted}${good ? '' : ': MISSED'}; load ${load})`);
  };

  /** Something that has to end with the part that began it. */
  keep(thing, end) { this.ends.unshift(() => end(thing)); return thing; }

  async part(name) {
    const begin = Date.now();
    try { await this[name](); } catch (error) { this.see(`the part ${name}`, false, error.stack); }
    for (const end of this.ends.splice(0)) await end();
    console.log(`${name}: ${((Date.now() - begin) / 1000).toFixed(0)} s, so far ${this.tried} tried, ${this.wrong} wrong`);
  }

  async desk(name, lines) {
    const desk = await Desk.make(this.program, join(this.folder, name)), answers = (await desk.feed(lines)).trim().split('\n');
    this.see(`each request of ${name} is granted`, answers.every(line => line.startsWith('200 ')),
      answers.find(line => !line.startsWith('200 ')));
    await desk.serve();
    return this.keep(desk, () => desk.stop());
  }

  async front(desk, roles = ROLES, more) { return this.keep(await Front.start(this.folder, desk, roles, more), front => front.stop()); }
  async browser() { return this.keep(await Browser.start(1920, 1080), browser => browser.end()); }

  /** The types, and how much a page loads at most, as nginx sends it. */
  async files() {
    const board = join(TOP, 'board');
    const shared = ['board.css', 'draw.js', 'desk.js', 'session.js', 'sound.js', 'words.js', 'customer.js', 'net.js', 'hear.js',
      'stream.js'];
    const ofRecords = [...readdirSync(join(board, 'records')).map(name => `records/${name}`), ...shared, 'settings.js', 'chart.js',
      'csv.js'];
    const ofAgent = [...readdirSync(join(board, 'agent')).map(name => `agent/${name}`), ...shared];
    const ofBoard = [...readdirSync(board), ...readdirSync(join(board, 'views')).map(name => `views/${name}`)];
    for (const [page, names, most] of [['a board', ofBoard, 60000], ["an agent's page", ofAgent, 40000],
      ['the page of records', ofRecords, 40000]]) {
      const files = names.filter(name => /(?<!\.d)\.(js|css|html)$/.test(name));
      const bytes = files.reduce((sum, name) => sum + gzipSync(readFileSync(join(board, name))).length, 0);
      this.see(`${page} has less than ${most} bytes by gzip`, bytes < most, bytes);
    }
    const said = await run('tsc', ['-p', join(TOP, 'board/jsconfig.json')]);
    this.see('tsc, as jsconfig.json says', said === '', said.slice(0, 400));
  }

  async gate() {
    const unit = readdirSync(join(TOP, 'tests/unit/gate')).filter(name => /^test_.*\.py$/.test(name))
      .map(name => `tests/unit/gate/${name}`);
    for (const test of [...unit, 'tests/trials/board/login_again.mjs', 'tests/trials/board/stream_again.mjs',
      'tests/trials/board/stream_shared.mjs', 'tests/trials/board/hear.mjs']) {
      const program = test.endsWith('.mjs') ? process.execPath : '/usr/bin/python3';
      try {
        execFileSync(program, [join(TOP, test)], {stdio: 'pipe'});
      } catch (error) {
        this.see(test, false, String(error.stderr).slice(-600));
      }
    }
    this.tried++;
  }

  /** What is told of a port that is taken: before anything is made, and in nginx's own words where it was taken since. */
  async show() {
    const other = this.keep(createServer(), server => server.close());
    const port = await new Promise(done => other.listen(0, '127.0.0.1', () => done(other.address().port)));
    const asked = words => spawnSync(join(TOP, 'tests/trials/show-board'), [this.program, ...words], {encoding: 'utf8', timeout: 10000});
    const taken = asked(['--port', port]), named = asked(['--port', 'x']);
    this.see('show-board looks at its port first',
      taken.status === 1 && taken.stdout === ''
        && taken.stderr === `tests/trials/show-board: port ${port} is taken: take another one by --port P\n`, JSON.stringify(taken));
    this.see('and at its words',
      named.status === 1
        && named.stderr === 'tests/trials/show-board: usage: tests/trials/show-board [PROGRAM] [--port P] [--pictures FOLDER]\n',
      JSON.stringify(named));
    const begin = Date.now();
    const said = await Front.start(this.folder, await this.desk('show.db', PLAN), ROLES, {port})
      .then(() => 'it starts', error => error.message);
    this.see("nginx's own line",
      said.startsWith("the gate or nginx doesn't start: nginx: [emerg] bind() to ") && said.includes(`:${port} failed`)
        && Date.now() - begin < 20000, said);
  }

  /** The pages' modules that need no document, run by node, from a copy whose folder says that they are modules. */
  async modules() {
    const copy = join(this.folder, 'modules');
    if (!existsSync(copy)) {
      await cp(join(TOP, 'board'), copy, {recursive: true});
      await writeFile(join(copy, 'package.json'), '{"type":"module"}');
    }
    return Object.assign({},
      ...await Promise.all(['desk.js', 'figures.js', 'customer.js', 'agent/mine.js'].map(name => import(pathToFileURL(join(copy, name))))));
  }

  async lines() {
    const desk = await this.desk('lines.db', await aDay(1, '--groups', 10, '--agents', 60));
    await lines(this.see, await this.modules(), desk, await this.front(desk));
  }

  async buttons() {
    const lines = (await run('python3', ['-B', join(TOP, 'tests/office.py'), 'given'])).trim().split('\n');
    const desk = await Desk.make(this.program, join(this.folder, 'buttons.db'));
    await desk.feed(lines.slice(0, 1500));
    await desk.serve();
    this.keep(desk, () => desk.stop());
    const {refused, granted, wrong} = await buttons(await this.modules(), desk, ROUNDS);
    this.see('each button is enabled where the desk grants it', wrong.length === 0 && refused > 0 && granted > 0,
      wrong.slice(0, 5).join('\n'));
    console.log(`    ${refused} requests of disabled buttons were refused, ${granted} of enabled ones granted, ${wrong.length} otherwise`);
  }

  async board() {
    const [lines, others] = [await aDay(1.5, '--groups', 10, '--agents', 60), await aDay(1, '--groups', 4, '--agents', 12, '--seed', 2)];
    const desk = await this.desk('day.db', lines), other = await this.desk('other.db', others);
    await other.stop();
    const front = await this.front(desk), browser = await this.browser(), folks = this.keep(people(desk, 12), one => one.end());
    const address = front.page('sup', '/board/');
    await browser.open(`${address}?since=0#wall`);
    await numbers(this.see, browser, desk, folks, 7);
    const own = ['100', '103', '106'];
    await browser.open(`${address}?since=0&groups=${own}&limit.100=45&limit.103=5#wall`);
    await numbers(this.see, browser, desk, folks, 3, {groups: own, limits: {100: 45, 103: 5}});
    await ownEvents(this.see, browser, desk, address, own);
    await settings(this.see, browser, address);
    folks.stop();
    await ways(this.see, browser, desk, address);
    folks.goOn();
    await still(this.see, browser, address, 10);
    await looks(this.see, browser, folks, address, this.pictures);
    await callers(this.see, browser, desk, address);
    folks.stop();
    await sheets(this.see, browser, desk, address);
    folks.goOn();
    await folks.end();
    await desk.post({requester: 'try', invoke: 90, service: 'tick'});
    await alarm(this.see, browser, desk, address);
    await clockAhead(this.see, browser, desk, new Desk(this.program, join(this.folder, 'early.db'), desk.port), address);
    await losses(this.see, browser, desk, other.file, address);
  }

  async alarms() {
    const made = Math.floor(Date.now() / 1000), desk = await this.desk('alarms.db', troubles(made)), front = await this.front(desk);
    const browser = await this.browser();
    await alarms(this.see, browser, desk, front.page('sup', '/board/'), made);
    await browser.fresh(front.page('sup', '/board/?since=0#queues'));
    await live(browser);
    await hangs(this.see, browser, front, () => browser.text('#queues-table [data-key="101"] td:nth-child(4)'));
    await gone(this.see, browser, front, desk, front.page('sup', '/board/?since=0#queues'));
    await nothing(this.see, browser, await this.front(await this.desk('nothing.db', PLAN.slice(3, 4))),
      await this.front(await this.desk('nobody.db', PLAN)));
  }

  async words() {
    const desk = await this.desk('words.db', await aDay(0.5, '--groups', 10, '--agents', 40)), front = await this.front(desk);
    const {groups, agents} = await desk.get('/snapshot');
    await words(this.see, await this.browser(), join(front.file, 'share/board'), where => front.page('sup', where),
      [...groups, ...agents].map(one => one.name));
  }

  async shape() {
    const desk = await this.desk('shape.db', await aDay(0.5, '--groups', 16, '--agents', 80)), front = await this.front(desk);
    await shape(this.see, await this.browser(), front, this.pictures);
  }

  async days() {
    const desk = await this.desk('days.db', days(Math.floor(Date.now() / 1000))), front = await this.front(desk);
    const browser = await this.browser();
    await zones(this.see, browser, desk, front);
    await overMidnight(this.see, browser, front);
  }

  async lead() {
    const desk = await this.desk('lead.db', office(Math.floor(Date.now() / 1000))), front = await this.front(desk);
    await lead(this.see, await this.browser(), desk, front);
    await session(this.see, await this.browser(), front);
  }

  async records() {
    const front = await this.front(await this.desk('records.db', PLAN));
    await records(this.see, await this.browser(), front, this.pictures);
  }

  async customer() {
    addresses(this.see, await this.modules());
    const desk = await this.desk('customer.db', PLAN);
    await customers(this.see, await this.browser(), desk, await this.front(desk));
  }

  async agent() {
    const desk = await this.desk('shift.db', PLAN), front = await this.front(desk, [...ROLES, ['max', 'lead', 'groups=130']]);
    const browser = await this.browser();
    await agentsPage(this.see, browser, desk, front, this.pictures);
  }

  async reasons() {
    const desk = await this.desk('reasons.db', PLAN), front = await this.front(desk, OF_AGENTS);
    const older = await this.front(desk, OF_AGENTS, {conf: join(TOP, 'tests/trials/gate/nginx-1.14.conf')});
    await reasons(this.see, await this.browser(), await this.browser(), desk, front, older, this.pictures);
  }

  async office() {
    await this.modules();
    const [plan, person] = await Promise.all(
      ['office/plan.js', 'office/person.js'].map(name => import(pathToFileURL(join(this.folder, 'modules', name)))));
    tables(this.see, plan, person);
    const desk = await this.desk('office.db', PLAN), front = await this.front(desk, [...ROLES, ['chef', 'admin']]);
    await officesPage(this.see, await this.browser(), desk, front, this.pictures);
  }

  async tabs() {
    const desk = await this.desk('tabs.db', PLAN);
    await tenTabs(this.see, await this.browser(), desk, await this.front(desk, READS_ALL, {http2: false}));
    const other = await this.desk('older.db', PLAN);
    await olderConf(this.see, await this.browser(), other,
      await this.front(other, READS_ALL, {conf: join(TOP, 'tests/trials/gate/nginx-1.14.conf')}));
  }

  async full() {
    const lines = await aDay(1, '--groups', 64, '--agents', 1000, '--load', 0.9), moment = lines[lines.length - 1].split(' ')[0];
    const asking = service => lines.filter(line => line.includes(`"${service}"`)).length;
    // as many calls as a desk may have
    for (let invoke = 1, live = asking('arriveCall') - asking('clearConnection'); live < MOST_CALLS; live++, invoke++) {
      const members = {service: 'arriveCall', caller: `04${invoke}`, called: String(100 + invoke % 64)};
      lines.push(`${moment} ${JSON.stringify({requester: 'many', invoke, ...members})}`);
    }
    const desk = await this.desk('full.db', lines), front = await this.front(desk), browser = await this.browser();
    await full(this.see, browser, desk, front, this.figure);
  }
}

export async function main(words) {
  const given = name => { const place = words.indexOf(name); return place < 0 ? undefined : words.splice(place, 2)[1]; };
  const [only, pictures] = [given('--only'), resolve(given('--pictures') ?? 'out/board')];
  const program = resolve(words[0] ?? join(TOP, 'release/acd'));
  const without = missing(NEEDED);
  if (without) throw new Error(without);
  const parts = only ? only.split(',') : PARTS, begin = Date.now();
  // a file is synced with each request, which costs nothing in memory
  const folder = await mkdtemp(join(existsSync('/dev/shm') ? '/dev/shm' : '/tmp', 'try-board-'));
  await mkdir(pictures, {recursive: true});
  const trial = new Trial(program, folder, pictures);
  try {
    const probe = await trial.desk('probe.db', PLAN);
    await probe.get('/snapshot').catch(() => { throw new Error(`${program} answers no /snapshot`); });
    await probe.stop();
    for (const part of parts) await trial.part(part);
  } finally {
    for (const end of trial.ends) await end();
    await sleep(100);
    await rm(folder, {recursive: true, force: true});
  }
  const seconds = ((Date.now() - begin) / 1000).toFixed(0);
  console.log(`${trial.tried} tried, ${trial.wrong} wrong, ${trial.missed} figures missed, in ${seconds} s; pictures in ${pictures}`);
  return trial.wrong ? 1 : 0;
}
