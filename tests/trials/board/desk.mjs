// A desk over a file in a folder, fed by lines and served; with a gate and nginx before it where a browser is to see it.
import {execFileSync, spawn, spawnSync} from 'node:child_process';
import {randomBytes} from 'node:crypto';
import {existsSync} from 'node:fs';
import {cp, mkdir, readFile, rm, writeFile} from 'node:fs/promises';
import {join} from 'node:path';
import {freePort, sleep, until} from './browser.mjs';

const HERE = new URL('.', import.meta.url).pathname;
export const TOP = join(HERE, '../../..');
// where Debian has nginx, and no ordinary user looks
process.env.PATH += ':/usr/sbin';

/** What a program prints, given its input. */
export function run(program, words, input = '') {
  return new Promise((done, fail) => {
    const child = spawn(program, words.map(String), {stdio: ['pipe', 'pipe', 'inherit']}), parts = [];
    child.stdin.on('error', () => {});
    child.stdin.end(input);
    child.stdout.on('data', part => parts.push(part));
    child.on('error', fail);
    child.on('close', () => done(Buffer.concat(parts).toString()));
  });
}

/** Which of these programs and modules of Debian's Python aren't there, in a line with the command that gets them, or nothing. */
export function missing(programs, modules = {}) {
  const isThere = name => process.env.PATH.split(':').some(folder => existsSync(join(folder, name)));
  const imports = name => spawnSync('/usr/bin/python3', ['-c', `import ${name}`]).status === 0;
  const without = [...Object.entries(programs).filter(([name]) => !isThere(name)),
    ...Object.entries(modules).filter(([name]) => !imports(name))];
  return without.length
    ? `not found: ${without.map(([name]) => name)
      .join(', ')}. As root: apt-get install ${[...new Set(without.map(([, from]) => from))].join(' ')}` : '';
}

/** The lines of a made-up day of some hours that ends now. */
export async function aDay(hours, ...words) {
  const end = Math.floor(Date.now() / 1000);
  return (await run('python3', ['-B', join(HERE, 'day.py'), '--begin', end - Math.round(3600 * hours), '--end', end, ...words])).trim()
    .split('\n');
}

/** The report's lines as lists of texts. */
export const reportLines = text => text.trimEnd().split('\n').slice(1).map(line => line.trim().split(/ +/).slice(0, 9));

export class Desk {
  constructor(program, file, port) { Object.assign(this, {program, file, port, child: null}); }
  static async make(program, file) { return new Desk(program, file, await freePort()); }

  /** Lines of moments and requests, as `acd lines` takes them; its answers. */
  feed(lines) { return run(this.program, ['lines', '--file', this.file], lines.map(line => `${line}\n`).join('')); }

  async serve() {
    this.child = spawn(this.program, ['serve', '--file', this.file, '--port', this.port, '--endless'].map(String),
      {stdio: ['ignore', 'pipe', 'ignore']});
    if (!await until(() => fetch(`http://127.0.0.1:${this.port}/events?after=999999999`).then(reply => reply.ok), 60)) {
      throw new Error('the desk does not serve');
    }
  }

  async stop(signal = 'SIGKILL') {
    const child = this.child;
    this.child = null;
    if (child && child.exitCode === null) await new Promise(done => { child.on('exit', done); child.kill(signal); });
  }

  async get(path) {
    const reply = await fetch(`http://127.0.0.1:${this.port}${path}`);
    if (reply.status !== 200) throw new Error(`${path} is answered ${reply.status}`);
    return reply.headers.get('content-type').startsWith('application/json') ? reply.json() : reply.text();
  }

  async post(body) {
    const reply = await fetch(`http://127.0.0.1:${this.port}/csta`,
      {method: 'POST', body: typeof body === 'string' ? body : JSON.stringify(body)});
    return {status: reply.status, ...await reply.json()};
  }

  /** All events behind one. */
  async events(after) {
    const found = [];
    for (;;) {
      const {events, last} = await this.get(`/history?after=${after}`);
      found.push(...events);
      after = events.length ? events[events.length - 1].number : after;
      if (after >= last) return found;
    }
  }

  /** Processor seconds that the program has taken. */
  async seconds() {
    const words = (await readFile(`/proc/${this.child.pid}/stat`, 'utf8')).split(') ')[1].split(' ');
    return (Number(words[11]) + Number(words[12])) / 100;
  }
}

/** A gate and nginx before a desk, by the configuration of service/nginx/nginx.conf or another one on other ports, and on the loopback
 * address alone; without HTTP/2 where that isn't wanted. */
export class Front {
  static async start(folder, desk, roles, {port, conf = join(TOP, 'service/nginx/nginx.conf'), http2 = true} = {}) {
    const front = new Front(), [gate, site] = [await freePort(), port ?? await freePort()], file = join(folder, `front${site}`);
    await mkdir(join(file, 'share'), {recursive: true});
    // files of its own, so that a trial may put some beside them
    await cp(join(TOP, 'board'), join(file, 'share/board'), {recursive: true});
    execFileSync('openssl',
      ['req', '-x509', '-newkey', 'rsa:2048', '-nodes', '-subj', '/CN=desk', '-days', '2', '-keyout', `${file}/desk.key`, '-out',
        `${file}/desk.crt`], {stdio: 'ignore'});
    await mkdir(`${file}/own`);
    await writeFile(`${file}/roles`, roles.map(([login, ...role]) => `${login} ${role.join(' ')}\n`).join(''));
    await writeFile(`${file}/nginx-secret.conf`,
      ['session', 'proxy'].map(name => `map "" $acd_${name}_secret { default "${randomBytes(32).toString('hex')}"; }\n`).join(''));
    await writeFile(`${file}/users`, roles.map(([login]) => `${login}:{SHA}5en6G6MezRroT3XKqkdPOmY/BfQ=\n`).join(''));
    const places = {'unix:/run/acd/desk.sock': `127.0.0.1:${desk.port}`, 'unix:/run/acd-gate/gate.sock': `127.0.0.1:${gate}`,
      '127.0.0.1:8080': `127.0.0.1:${desk.port}`, '127.0.0.1:8081': `127.0.0.1:${gate}`, 8443: `127.0.0.1:${site}`, '/etc/acd': file,
      '/usr/share/acd': `${file}/share`};
    const text = (await readFile(conf, 'utf8')).replace(new RegExp(Object.keys(places).join('|'), 'g'), named => places[named])
      .replace(/(listen .* ssl) http2;/, http2 ? '$&' : '$1;');
    const paths = ['client_body', 'proxy', 'fastcgi', 'uwsgi', 'scgi'].map(kind => `${kind}_temp_path ${file};`).join(' ');
    await writeFile(`${file}/nginx.conf`, `daemon off; user root; pid ${file}/pid; error_log ${file}/errors; worker_processes 1; events {}
http { include /etc/nginx/mime.types; access_log off; ${paths} ${text} }\n`);
    const told = [];
    const files = ['--roles', `${file}/roles`, '--users', `${file}/users`, '--own', `${file}/own`, '--secret', `${file}/nginx-secret.conf`,
      '--records', `${file}/records`];
    const words = ['--port', `${gate}`, '--desk', `${desk.port}`, ...files, '--office', `${file}/board.json`];
    Object.assign(front, {file, gate, words, address: `https://127.0.0.1:${site}`, children: [
      front.asGate(words),
      spawn('nginx', ['-c', `${file}/nginx.conf`], {stdio: ['ignore', 'ignore', 'pipe']}),
    ]});
    front.children[1].stderr.on('data', part => told.push(part));
    const ended = Promise.race(front.children.map(child => new Promise(done => child.on('exit', () => done('ended')))));
    if (await Promise.race([ended, until(async () => (await front.ask(roles[0][0], '/who')).status === 200, 60)]) === true) return front;
    await front.stop();
    // all that nginx said where it says of nothing that it ended it
    const said = Buffer.concat(told).toString().trim().split('\n');
    throw new Error(
      `the gate or nginx doesn't start: ${(said.find(line => line.includes('[emerg]')) ?? said.join(' ')) || 'nginx said nothing'}`);
  }

  asGate(words) {
    return spawn('/usr/bin/python3', ['-B', join(TOP, 'service/bin/acd-gate'), ...words], {stdio: ['ignore', 'ignore', 'inherit']});
  }

  async stopGate() {
    const [gate] = this.children;
    await new Promise(done => { gate.on('exit', done); gate.kill(); });
  }

  async startGate(login) {
    this.children[0] = this.asGate(this.words);
    return until(async () => (await this.ask(login, '/who')).status === 200, 60);
  }

  /** The address of a page, with a login in it. */
  page(login, path) { return `${this.address.replace('//', `//${login}:secret@`)}/basic?${path}`; }

  /** By curl, since the certificate is nobody's. */
  async ask(login, path, body, ...more) {
    const given = body === undefined ? [] : ['-d', typeof body === 'string' ? body : JSON.stringify(body)];
    const text = await run('curl',
      ['-sk', '--max-time', '20', '-u', `${login}:secret`, '-w', '\n%{http_code}', ...more, ...given, `${this.address}${path}`]);
    const cut = text.lastIndexOf('\n');
    return {status: Number(text.slice(cut + 1)), text: text.slice(0, cut)};
  }

  async stop() {
    for (const child of this.children) child.kill();
    await sleep(100);
    await rm(this.file, {recursive: true, force: true});
  }
}
