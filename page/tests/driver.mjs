// A small driver of real browsers: Chromium through chromedriver, Firefox through Marionette, which is what geckodriver speaks to it.
// Both know the same commands of WebDriver; here they have the same names.

import { spawn } from 'node:child_process';
import { mkdirSync, mkdtempSync, rmSync, writeFileSync } from 'node:fs';
import { connect, createServer } from 'node:net';
import { tmpdir } from 'node:os';
import { join } from 'node:path';

const ELEMENT = 'element-6066-11e4-a52e-4f735466cecf';

// A port that is free now.
function freePort() {
  return new Promise((done) => {
    const server = createServer();
    server.listen(0, '127.0.0.1', () => {
      const { port } = server.address();
      server.close(() => done(port));
    });
  });
}

// Waits so many milliseconds.
export function pause(milliseconds) {
  return new Promise((done) => setTimeout(done, milliseconds));
}

// Tries until something holds; after so many seconds it is an error.
export async function until(what, tried, seconds = 30) {
  const end = Date.now() + seconds * 1000;
  let last = null;
  while (Date.now() < end) {
    try {
      const value = await tried();
      if (value) return value;
    } catch (error) {
      last = error;
    }
    await pause(50);
  }
  throw new Error(`not within ${seconds} s: ${what}${last ? ` (${last.message})` : ''}`);
}

// Chromium: each command is a request to chromedriver.
class Chromium {
  static async begin(folder, { language, dark }) {
    const port = await freePort();
    const process = spawn('chromedriver', [`--port=${port}`], { stdio: 'ignore' });
    const browser = new Chromium(`http://127.0.0.1:${port}`, process);
    await until('chromedriver answers', () => fetch(`${browser.address}/status`).then((told) => told.ok));
    const args = ['--headless=new', '--no-sandbox', '--disable-gpu', '--disable-dev-shm-usage', `--lang=${language}`,
      '--no-first-run', '--disable-background-networking', '--force-color-profile=srgb', '--window-size=1280,900'];
    if (dark) args.push('--blink-settings=preferredColorScheme=0');
    const prefs = { 'intl.accept_languages': language, 'download.default_directory': folder, 'download.prompt_for_download': false,
      'profile.default_content_setting_values.automatic_downloads': 1 };
    const options = { binary: '/usr/bin/chromium', args, prefs };
    const always = { browserName: 'chrome', 'goog:chromeOptions': options, 'goog:loggingPrefs': { browser: 'ALL', performance: 'ALL' } };
    const told = await browser.send('POST', '/session', { capabilities: { alwaysMatch: always } });
    browser.session = `/session/${told.sessionId}`;
    return browser;
  }

  constructor(address, process) {
    this.name = 'Chromium';
    this.address = address;
    this.process = process;
  }

  async send(method, path, body) {
    const told = await fetch(this.address + path, { method, body: body === undefined ? undefined : JSON.stringify(body) });
    const { value } = await told.json();
    if (value && value.error) throw new Error(`${value.error}: ${value.message}`);
    return value;
  }

  post(path, body = {}) {
    return this.send('POST', this.session + path, body);
  }

  open(url) {
    return this.post('/url', { url });
  }

  run(script, ...args) {
    return this.post('/execute/sync', { script, args });
  }

  async find(css) {
    return (await this.post('/element', { using: 'css selector', value: css }))[ELEMENT];
  }

  async type(css, text) {
    return this.post(`/element/${await this.find(css)}/value`, { text });
  }

  async click(css) {
    return this.post(`/element/${await this.find(css)}/click`);
  }

  async text(css) {
    return this.send('GET', `${this.session}/element/${await this.find(css)}/text`);
  }

  keys(actions) {
    return this.post('/actions', { actions: [{ type: 'key', id: 'keyboard', actions }] });
  }

  picture() {
    return this.send('GET', `${this.session}/screenshot`);
  }

  pdf() {
    return this.post('/print', {});
  }

  size(width, height) {
    return this.post('/window/rect', { width, height });
  }

  // What the console said, and every request that was made, since the last time.
  async heard() {
    const console = await this.post('/se/log', { type: 'browser' });
    const told = await this.post('/se/log', { type: 'performance' });
    const events = told.map((entry) => JSON.parse(entry.message).message);
    const requests = events.filter((event) => event.method === 'Network.requestWillBeSent').map((event) => event.params.request.url);
    return { console: console.filter((entry) => entry.level !== 'DEBUG').map((entry) => entry.message), requests };
  }

  async end() {
    await this.send('DELETE', this.session).catch(() => {});
    this.process.kill();
  }
}

// Firefox: each command is a packet to Marionette, with its length before it.
class Firefox {
  static async begin(folder, { language, dark }) {
    const port = await freePort();
    const profile = mkdtempSync(join(tmpdir(), 'page-firefox-'));
    const prefs = {
      'marionette.port': port, 'intl.accept_languages': language, 'intl.locale.requested': language.split(',')[0],
      'browser.download.folderList': 2, 'browser.download.dir': folder, 'browser.download.useDownloadDir': true,
      'browser.download.always_ask_before_handling_new_types': false, 'browser.helperApps.neverAsk.saveToDisk': 'application/octet-stream,text/csv',
      'browser.shell.checkDefaultBrowser': false, 'datareporting.policy.dataSubmissionEnabled': false, 'app.update.enabled': false,
      'layout.css.prefers-color-scheme.content-override': dark ? 0 : 1, 'ui.systemUsesDarkTheme': dark ? 1 : 0,
      'devtools.console.stdout.content': true, 'network.captive-portal-service.enabled': false, 'network.connectivity-service.enabled': false,
      'dom.disable_beforeunload': false, 'browser.tabs.remote.separateFileUriProcess': true, 'dom.disable_open_during_load': false,
    };
    const lines = Object.entries(prefs).map(([name, value]) => `user_pref(${JSON.stringify(name)}, ${JSON.stringify(value)});`);
    writeFileSync(join(profile, 'user.js'), `${lines.join('\n')}\n`);
    const process = spawn('firefox-esr', ['--headless', '--marionette', '--no-remote', '--profile', profile, '--width', '1280', '--height', '900'],
      { stdio: ['ignore', 'pipe', 'pipe'], env: { ...globalThis.process.env, HOME: profile } });
    const browser = new Firefox(profile, process);
    for (const stream of [process.stdout, process.stderr]) stream.on('data', (bytes) => { browser.said += bytes; });
    await until('Firefox answers', () => browser.join(port), 60);
    await browser.send('WebDriver:NewSession', { capabilities: { alwaysMatch: { acceptInsecureCerts: false, unhandledPromptBehavior: 'accept' } } });
    return browser;
  }

  constructor(profile, process) {
    Object.assign(this, { name: 'Firefox', profile, process, said: '', heardOf: 0, next: 1, waiting: new Map(), left: Buffer.alloc(0) });
  }

  // Connects; the first packet is a greeting.
  join(port) {
    return new Promise((done, fail) => {
      this.socket = connect(port, '127.0.0.1');
      this.socket.once('error', fail);
      this.greeted = () => done(true);
      this.socket.on('data', (bytes) => this.hear(bytes));
    });
  }

  hear(bytes) {
    this.left = Buffer.concat([this.left, bytes]);
    for (;;) {
      const colon = this.left.indexOf(':');
      if (colon < 0) return;
      const length = Number(this.left.subarray(0, colon));
      if (this.left.length < colon + 1 + length) return;
      const packet = JSON.parse(this.left.subarray(colon + 1, colon + 1 + length));
      this.left = this.left.subarray(colon + 1 + length);
      if (Array.isArray(packet)) this.answered(packet);
      else this.greeted();
    }
  }

  answered([, id, error, value]) {
    const { done, fail } = this.waiting.get(id);
    this.waiting.delete(id);
    if (error) fail(new Error(`${error.error}: ${error.message}`));
    else done(value);
  }

  send(name, parameters = {}) {
    return new Promise((done, fail) => {
      const id = this.next++;
      this.waiting.set(id, { done, fail });
      const text = JSON.stringify([0, id, name, parameters]);
      this.socket.write(`${Buffer.byteLength(text)}:${text}`);
    });
  }

  open(url) {
    return this.send('WebDriver:Navigate', { url });
  }

  async run(script, ...args) {
    return (await this.send('WebDriver:ExecuteScript', { script, args, newSandbox: false, sandbox: null })).value;
  }

  async find(css) {
    return (await this.send('WebDriver:FindElement', { using: 'css selector', value: css })).value[ELEMENT];
  }

  async type(css, text) {
    return this.send('WebDriver:ElementSendKeys', { id: await this.find(css), text });
  }

  async click(css) {
    return this.send('WebDriver:ElementClick', { id: await this.find(css) });
  }

  async text(css) {
    return (await this.send('WebDriver:GetElementText', { id: await this.find(css) })).value;
  }

  keys(actions) {
    return this.send('WebDriver:PerformActions', { actions: [{ type: 'key', id: 'keyboard', actions }] });
  }

  async picture() {
    return (await this.send('WebDriver:TakeScreenshot', { full: false })).value;
  }

  async pdf() {
    return (await this.send('WebDriver:Print', {})).value;
  }

  size(width, height) {
    return this.send('WebDriver:SetWindowRect', { width, height });
  }

  // What the console said of the page since the last time, and not of the browser's own parts. Requests are what the page itself sees of them.
  async heard() {
    const lines = this.said.slice(this.heardOf).split('\n');
    this.heardOf = this.said.length;
    const requests = await this.run('return performance.getEntriesByType("resource").map((entry) => entry.name)');
    const own = lines.filter((line) => /^JavaScript (error|warning): /.test(line) && !/: (resource|chrome):/.test(line));
    return { console: own, requests };
  }

  async end() {
    this.socket.destroy();
    this.process.kill();
    await new Promise((done) => { this.process.once('exit', done); });
    rmSync(this.profile, { recursive: true, force: true });
  }
}

// Begins a browser by its name; what it saves goes to the folder.
export async function begin(name, folder, { language = 'en', dark = false } = {}) {
  mkdirSync(folder, { recursive: true });
  return { Chromium, Firefox }[name].begin(folder, { language, dark });
}
