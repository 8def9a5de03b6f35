// A headless Chromium, driven by chromedriver (WebDriver over HTTP).
import {spawn} from 'node:child_process';
import {createServer} from 'node:net';
import {writeFile} from 'node:fs/promises';

const ELEMENT = 'element-6066-11e4-a52e-4f735466cecf';
export const sleep = milliseconds => new Promise(done => setTimeout(done, milliseconds));

/** A port of the loopback address that nobody has. */
export const freePort = () => new Promise(done => {
  const server = createServer();
  server.listen(0, '127.0.0.1', () => { const {port} = server.address(); server.close(() => done(port)); });
});

/** Why nobody can listen on this port of the loopback address, or nothing. */
export const portFault = port => new Promise(done => {
  const server = createServer();
  server.once('error', error => done(error.code === 'EADDRINUSE' ? 'is taken' : `isn't to be had (${error.code})`));
  server.listen({port, host: '127.0.0.1', exclusive: true}, () => server.close(() => done('')));
});

/** Asks until the answer is true; false where that took too long. */
export async function until(ask, seconds = 20, every = 100) {
  for (const end = Date.now() + 1000 * seconds; Date.now() < end; await sleep(every)) {
    const answer = await Promise.resolve(ask()).catch(() => false);
    if (answer) return answer;
  }
  return false;
}

export class Browser {
  static async start(width, height, more = []) {
    const browser = new Browser(), port = await freePort();
    browser.driver = spawn('chromedriver', [`--port=${port}`], {stdio: 'ignore'});
    browser.base = `http://127.0.0.1:${port}`;
    if (!await until(() => fetch(`${browser.base}/status`).then(reply => reply.ok))) throw new Error('chromedriver does not start');
    const args = ['--headless=new', '--no-sandbox', '--disable-gpu', '--disable-dev-shm-usage', '--ignore-certificate-errors',
      '--hide-scrollbars', '--disable-background-networking', `--window-size=${width},${height}`, ...more];
    const {sessionId} = await browser.ask('POST', '/session',
      {capabilities: {
        alwaysMatch: {browserName: 'chrome', acceptInsecureCerts: true, 'goog:chromeOptions': {args},
          'goog:loggingPrefs': {browser: 'ALL'}}}});
    browser.base += `/session/${sessionId}`;
    await browser.size(width, height);
    return browser;
  }

  async ask(method, path, body) {
    const reply = await fetch(this.base + path,
      {method, body: body && JSON.stringify(body), headers: {'content-type': 'application/json'}});
    const {value} = await reply.json();
    if (!reply.ok) throw new Error(`${path}: ${value.message.split('\n')[0]}`);
    return value;
  }

  command(cmd, params = {}) { return this.ask('POST', '/goog/cdp/execute', {cmd, params}); }

  /** The size of the page itself, whatever the window's frame takes. */
  size(width, height) { return this.command('Emulation.setDeviceMetricsOverride', {width, height, deviceScaleFactor: 1, mobile: false}); }

  open(address) { return this.ask('POST', '/url', {url: address}); }

  /** A page that is loaded anew, also where its address differs by no more than what is behind #. */
  async fresh(address) {
    await this.open('about:blank');
    await this.open(address);
  }

  run(script, ...args) { return this.ask('POST', '/execute/sync', {script, args}); }
  async find(selector) { return (await this.ask('POST', '/element', {using: 'css selector', value: selector}))[ELEMENT]; }
  async click(selector) { return this.ask('POST', `/element/${await this.find(selector)}/click`, {}); }
  text(selector) { return this.run('return document.querySelector(arguments[0])?.textContent ?? null', selector); }

  /** Keys that are pressed one after the other, by WebDriver's names for them: \uE004 is Tab. */
  press(...keys) {
    const actions = keys.flatMap(value => [{type: 'keyDown', value}, {type: 'keyUp', value}]);
    return this.ask('POST', '/actions', {actions: [{type: 'key', id: 'keys', actions}]});
  }

  /** On a busy machine the browser at times gives none within the time that its driver grants. */
  async picture(file) {
    const shot = await until(() => this.ask('GET', '/screenshot'), 60);
    if (!shot) throw new Error(`no picture for ${file}`);
    await writeFile(file, Buffer.from(shot, 'base64'));
  }

  /** What the page wrote to its console since this was asked for last. */
  async said() { return (await this.ask('POST', '/se/log', {type: 'browser'})).map(entry => `${entry.level} ${entry.message}`); }

  async end() {
    await this.ask('DELETE', '').catch(() => {});
    this.driver.kill();
  }
}
