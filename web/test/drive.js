// What the tests of the page share: the page that is driven, what is seen in it, what is wanted.
import { readFileSync, readdirSync, rmSync } from 'node:fs';
import { join } from 'node:path';
import { report } from './report.js';

export const { is, end } = report();

// The page, and where things are: set when the browser is open.
export let page;
export let folders;

export function drive(opened, places) {
  page = opened;
  folders = places;
}

const quoted = (text) => JSON.stringify(text);

export const text = (selector) =>
  page.evaluate(`document.querySelector(${quoted(selector)}).textContent`);
export const valueOf = (selector) =>
  page.evaluate(`document.querySelector(${quoted(selector)}).value`);
export const isShown = (selector) =>
  page.evaluate(`document.querySelector(${quoted(selector)}).checkVisibility()`);
export const count = (selector) =>
  page.evaluate(`document.querySelectorAll(${quoted(selector)}).length`);
export const picture = (name) => page.wholePicture(join(folders.pictures, `${name}.png`));

export async function has(what, selector, words) {
  await page.until(`document.querySelector(${quoted(selector)})
    ?.textContent.includes(${quoted(words)})`, 5);
  const said = await text(selector);
  is(what, said.includes(words) || said, true);
}

export async function clicks(selector, times) {
  for (let k = 0; k < times; k += 1) await page.click(selector);
}

// Waits until what was written was looked at, and its fault told.
export const isTold = () =>
  page.until('!document.getElementById("text").matches(".waits, .untold")', 5);

// Writes a text into the editor.
export async function write(content) {
  await page.click('#text');
  await page.selectAll();
  if (content === '') await page.press('Delete');
  else await page.insert(content);
  await isTold();
}

// Pastes a text in the place of all there is, as the keys for it do.
export const paste = (text) => `(() => {
  const data = new DataTransfer();
  data.setData('text/plain', ${text});
  const area = document.getElementById('text');
  area.focus();
  area.select();
  const how = { clipboardData: data, bubbles: true, cancelable: true };
  area.dispatchEvent(new ClipboardEvent('paste', how));
})()`;

// An address with nothing else of the last one: the page is loaded anew.
export async function open(hash = '') {
  is(`opens ${hash.slice(0, 60)}`, await page.open(folders.address + hash), true);
}

// Loads the page anew where it is.
export async function reload() {
  await page.evaluate('document.documentElement.setAttribute("data-old", "")');
  await page.refresh();
  await page.until(`document.documentElement?.hasAttribute('data-ready') &&
    !document.documentElement.hasAttribute('data-old')`);
}

// Clicks on what saves a file of this name, and reads the file, which is empty at first.
export async function saved(selector, name) {
  const path = join(folders.downloads, name);
  rmSync(path, { force: true });
  await page.click(selector);
  for (let polls = 0; polls < 100; polls += 1) {
    const isThere = readdirSync(folders.downloads).includes(name);
    const file = isThere ? readFileSync(path, 'utf8') : '';
    if (file !== '') return file;
    await page.until('false', 0.1);
  }
  return '';
}

// What has the focus: its id, or its name.
export const focused = () => page.evaluate(`document.activeElement.id ||
  document.activeElement.getAttribute('aria-label') || document.activeElement.tagName`);
