// Debian's Firefox, driven over its Marionette protocol by a socket: no package, no driver.
import { spawn } from 'node:child_process';
import { mkdtempSync, rmSync, writeFileSync } from 'node:fs';
import { connect, createServer } from 'node:net';
import { tmpdir } from 'node:os';
import { join } from 'node:path';
import { Tab, wait } from './tab.js';

// Keys as WebDriver names them.
const KEYS = {
  ArrowLeft: '\uE012', ArrowRight: '\uE014', Home: '\uE011', End: '\uE010', Tab: '\uE004',
  Delete: '\uE017', Enter: '\uE007', Escape: '\uE00C', PageUp: '\uE00E', PageDown: '\uE00F',
};
const [CONTROL, SHIFT] = ['\uE009', '\uE008'];
const TRIES = 200;

const preferences = (port, downloads) => `
user_pref('marionette.port', ${port});
user_pref('browser.download.folderList', 2);
user_pref('browser.download.dir', ${JSON.stringify(downloads)});
user_pref('intl.accept_languages', 'en');
user_pref('security.fileuri.strict_origin_policy', false);
`;

const freePort = () => new Promise((done) => {
  const server = createServer().listen(0, '127.0.0.1', () => {
    const { port } = server.address();
    server.close(() => done(port));
  });
});

async function socketTo(port, tries = TRIES) {
  const socket = connect(port, '127.0.0.1');
  const isOpen = await new Promise((done) => {
    socket.once('connect', () => done(true)).once('error', () => done(false));
  });
  if (isOpen) return socket;
  if (tries === 0) throw new Error('Firefox does not answer');
  await wait(100);
  return socketTo(port, tries - 1);
}

// Messages are their length in bytes, a colon, and JSON.
class Connection {
  constructor(socket) {
    Object.assign(this, { socket, last: 0, waiting: new Map(), kept: Buffer.alloc(0) });
    socket.on('data', (piece) => {
      this.kept = Buffer.concat([this.kept, piece]);
      this.read();
    });
  }

  read() {
    const colon = this.kept.indexOf(':');
    const end = colon + 1 + Number(this.kept.subarray(0, Math.max(colon, 0)).toString());
    if (colon < 0 || this.kept.length < end) return;
    const message = JSON.parse(this.kept.subarray(colon + 1, end).toString());
    this.kept = this.kept.subarray(end);
    if (Array.isArray(message)) this.waiting.get(message[1])?.(message);
    this.read();
  }

  async call(name, parameters = {}) {
    this.last += 1;
    const id = this.last;
    const answered = new Promise((settle) => { this.waiting.set(id, settle); });
    const message = Buffer.from(JSON.stringify([0, id, name, parameters]));
    this.socket.write(Buffer.concat([Buffer.from(`${message.length}:`), message]));
    const [, , error, result] = await answered;
    this.waiting.delete(id);
    if (error) throw new Error(`${name}: ${error.message}`);
    return result;
  }
}

class FirefoxPage extends Tab {
  constructor(connection) {
    super();
    Object.assign(this, { connection, exceptions: [] });
  }

  call(name, parameters) {
    return this.connection.call(name, parameters);
  }

  async evaluate(expression) {
    const script = `return (async () => (${expression.replace(/;\s*$/, '')}))()`;
    const { value } = await this.call('WebDriver:ExecuteScript', { script, args: [] });
    return value ?? undefined;
  }

  async goTo(url) {
    await this.noteTrouble();
    await this.call('WebDriver:Navigate', { url });
  }

  refresh() {
    return this.call('WebDriver:Refresh');
  }

  // The page tells its exceptions in itself.
  async noteTrouble() {
    const told = await this.evaluate('document.querySelector("#trouble:not([hidden])")?.textContent');
    if (told) this.exceptions.push(told);
  }

  resize(width, height) {
    return this.call('WebDriver:SetWindowRect', { width, height: height + 85 });
  }

  act(...actions) {
    return this.call('WebDriver:PerformActions', { actions });
  }

  keys(...names) {
    const down = names.map((value) => ({ type: 'keyDown', value }));
    const up = [...names].reverse().map((value) => ({ type: 'keyUp', value }));
    return this.act({ type: 'key', id: 'keys', actions: [...down, ...up] });
  }

  // A click of the mouse in the middle of what the selector finds.
  async click(selector) {
    const [x, y] = (await this.middleOf(selector)).map(Math.round);
    const button = { button: 0 };
    await this.act({
      type: 'pointer', id: 'mouse', parameters: { pointerType: 'mouse' },
      actions: [{ type: 'pointerMove', x, y }, { type: 'pointerDown', ...button },
        { type: 'pointerUp', ...button }],
    });
  }

  press(key) {
    return this.keys(KEYS[key] ?? key);
  }

  // A key with Control; `more` is 8 with Shift, too.
  chord(key, more = 0) {
    return this.keys(CONTROL, ...(more ? [SHIFT] : []), key);
  }

  insert(text) {
    return this.evaluate(`document.execCommand('insertText', false, ${JSON.stringify(text)})`);
  }

  selectAll() {
    return this.chord('a');
  }

  async takePicture(file, full) {
    const { value } = await this.call('WebDriver:TakeScreenshot', { full });
    writeFileSync(file, Buffer.from(value, 'base64'));
  }

  // What is in sight, in the folder that was set for pictures.
  sightPicture(name) {
    return this.takePicture(join(this.pictures, `${name}.png`), false);
  }

  wholePicture(file) {
    return this.takePicture(file, true);
  }
}

// Opens Firefox, lets `work` have a page, and closes both.
export async function withPage(work) {
  const folder = mkdtempSync(join(tmpdir(), 'playground-'));
  const port = await freePort();
  writeFileSync(join(folder, 'user.js'), preferences(port, folder));
  const firefox = spawn('firefox-esr', ['--headless', '--marionette', '--profile', folder],
    { stdio: 'ignore' });
  const ended = new Promise((done) => { firefox.on('exit', done); });
  try {
    const socket = await socketTo(port);
    const connection = new Connection(socket);
    await connection.call('WebDriver:NewSession', {});
    const page = new FirefoxPage(connection);
    const told = await work(page, folder);
    await page.noteTrouble();
    socket.destroy();
    return told;
  } finally {
    firefox.kill();
    await ended;
    rmSync(folder, { recursive: true, force: true, maxRetries: 5 });
  }
}
