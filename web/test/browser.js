// A real browser, driven over the DevTools protocol by a pipe: Debian's chromium, no package.
import { spawn } from 'node:child_process';
import { mkdtempSync, rmSync, writeFileSync } from 'node:fs';
import { tmpdir } from 'node:os';
import { join } from 'node:path';
import { Tab, wait } from './tab.js';

const OPTIONS = ['--headless=new', '--no-sandbox', '--disable-gpu', '--remote-debugging-pipe',
  '--hide-scrollbars', '--force-color-profile=srgb', '--font-render-hinting=none'];

const PATIENCE = 30000;
const KEY_CODES = {
  ArrowLeft: 37, ArrowRight: 39, Home: 36, End: 35, ' ': 32, Tab: 9, Delete: 46, Enter: 13,
};

class Connection {
  constructor(chromium) {
    this.out = chromium.stdio[3];
    this.waiting = new Map();
    this.listeners = new Map();
    this.last = 0;
    let kept = '';
    chromium.stdio[4].setEncoding('utf8');
    chromium.stdio[4].on('data', (piece) => {
      const messages = (kept + piece).split('\0');
      kept = messages.pop();
      for (const message of messages) this.receive(JSON.parse(message));
    });
  }

  receive(message) {
    const settle = this.waiting.get(message.id);
    if (settle) {
      this.waiting.delete(message.id);
      settle(message);
    } else {
      this.listeners.get(message.method)?.(message.params);
    }
  }

  async call(method, params = {}, sessionId = undefined) {
    this.last += 1;
    const id = this.last;
    const answered = new Promise((settle) => { this.waiting.set(id, settle); });
    const late = wait(PATIENCE).then(() => ({ error: { message: 'no answer in time' } }));
    this.out.write(`${JSON.stringify({ id, method, params, sessionId })}\0`);
    const { result, error } = await Promise.race([answered, late]);
    if (error) throw new Error(`${method}: ${error.message}`);
    return result;
  }
}

// One page in the browser.
class Page extends Tab {
  constructor(connection, session) {
    super();
    this.session = session;
    this.connection = connection;
    this.exceptions = [];
    connection.listeners.set('Runtime.exceptionThrown', ({ exceptionDetails: details }) =>
      this.exceptions.push(details.exception?.description ?? details.text));
    connection.listeners.set('Log.entryAdded', ({ entry }) => {
      if (entry.level === 'error') this.exceptions.push(`${entry.text} ${entry.url ?? ''}`);
    });
  }

  call(method, params) {
    return this.connection.call(method, params, this.session);
  }

  // Lets `work` have another tab, and closes it.
  async withAnother(work) {
    const other = await openTab(this.connection);
    try {
      return await work(other);
    } finally {
      await other.call('Page.close');
    }
  }

  async evaluate(expression) {
    const params = { expression, returnByValue: true, awaitPromise: true };
    const { result, exceptionDetails } = await this.call('Runtime.evaluate', params);
    if (exceptionDetails) throw new Error(`${expression}: ${JSON.stringify(exceptionDetails)}`);
    return result.value;
  }

  refresh() {
    return this.call('Page.reload');
  }

  goTo(url) {
    return this.call('Page.navigate', { url });
  }

  resize(width, height, scale = 1) {
    return this.call('Emulation.setDeviceMetricsOverride',
      { width, height, deviceScaleFactor: scale, mobile: false });
  }

  setScheme(value) {
    const features = [{ name: 'prefers-color-scheme', value }];
    return this.call('Emulation.setEmulatedMedia', { features });
  }

  // A click of the mouse in the middle of what the selector finds.
  async click(selector) {
    const [x, y] = await this.middleOf(selector);
    const at = { x, y, button: 'left', clickCount: 1 };
    await this.call('Input.dispatchMouseEvent', { type: 'mousePressed', ...at });
    await this.call('Input.dispatchMouseEvent', { type: 'mouseReleased', ...at });
  }

  async press(key, code = key, text = undefined) {
    const windowsVirtualKeyCode = KEY_CODES[key] ?? key.toUpperCase().charCodeAt(0);
    const event = { key, code, windowsVirtualKeyCode };
    await this.call('Input.dispatchKeyEvent', { type: 'keyDown', ...event, text });
    await this.call('Input.dispatchKeyEvent', { type: 'keyUp', ...event });
  }

  // A key with Control.
  async chord(key, more = 0) {
    const windowsVirtualKeyCode = key.toUpperCase().charCodeAt(0);
    const code = `Key${key.toUpperCase()}`;
    const event = { key, code, windowsVirtualKeyCode, modifiers: 2 | more };
    await this.call('Input.dispatchKeyEvent', { type: 'rawKeyDown', ...event });
    await this.call('Input.dispatchKeyEvent', { type: 'keyUp', ...event });
  }

  // Puts a text where the cursor stands, as a paste does.
  insert(text) {
    return this.call('Input.insertText', { text });
  }

  async selectAll() {
    const event = { key: 'a', code: 'KeyA', windowsVirtualKeyCode: 65, modifiers: 2 };
    await this.call('Input.dispatchKeyEvent',
      { type: 'keyDown', ...event, commands: ['selectAll'] });
    await this.call('Input.dispatchKeyEvent', { type: 'keyUp', ...event });
  }

  // What is in sight, in the folder that was set for pictures.
  async sightPicture(name) {
    const { data } = await this.call('Page.captureScreenshot', { format: 'png' });
    writeFileSync(join(this.pictures, `${name}.png`), Buffer.from(data, 'base64'));
  }

  // The whole page: the window is made as high as the page for a moment.
  async wholePicture(file) {
    const { cssContentSize: size, cssLayoutViewport: sight } =
      await this.call('Page.getLayoutMetrics');
    const { clientWidth: width, clientHeight: height } = sight;
    await this.resize(width, Math.min(Math.max(size.height, height), 5000));
    const { data } = await this.call('Page.captureScreenshot', { format: 'png' });
    await this.resize(width, height);
    writeFileSync(file, Buffer.from(data, 'base64'));
  }
}

// A new tab.
async function openTab(connection) {
  const { targetId } = await connection.call('Target.createTarget', { url: 'about:blank' });
  const attached = await connection.call('Target.attachToTarget', { targetId, flatten: true });
  const page = new Page(connection, attached.sessionId);
  for (const domain of ['Runtime', 'Page', 'Log']) await page.call(`${domain}.enable`);
  return page;
}

// Opens a browser, lets `work` have a page, and closes both.
export async function withPage(work) {
  const folder = mkdtempSync(join(tmpdir(), 'playground-'));
  const chromium = spawn('chromium', [...OPTIONS, `--user-data-dir=${folder}`, 'about:blank'],
    { stdio: ['ignore', 'ignore', 'ignore', 'pipe', 'pipe'] });
  const ended = new Promise((done) => { chromium.on('exit', done); });
  try {
    const connection = new Connection(chromium);
    const page = await openTab(connection);
    await page.call('Browser.setDownloadBehavior', { behavior: 'allow', downloadPath: folder });
    return await work(page, folder);
  } finally {
    chromium.kill();
    await ended;
    rmSync(folder, { recursive: true, force: true, maxRetries: 5 });
  }
}
