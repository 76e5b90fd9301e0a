// The link for others, and what the page says of the board's form.
import { readFileSync } from 'node:fs';
import { createServer } from 'node:http';
import { fileURLToPath } from 'node:url';
import { folders, has, is, isShown, open, page, text, valueOf } from './drive.js';

export async function testCopiedLink() {
  await open('#example=sum&view=workers&workers=2&acts=0.1*9');
  await page.click('#copy-link');
  await has('a file is no link', '#link-said', 'others need the file playground.html too');
  const copied = await valueOf('#link');
  is('no path of this machine', copied.startsWith('playground.html#example=sum&'), true);
  const content = readFileSync(fileURLToPath(folders.address));
  const server = createServer((_, response) => {
    response.writeHead(200, { 'Content-Type': 'text/html; charset=utf-8' }).end(content);
  });
  await new Promise((done) => { server.listen(0, '127.0.0.1', done); });
  const start = `http://127.0.0.1:${server.address().port}/play.html?embed=1`;
  is('opens by http', await page.open(`${start}#example=sum&view=workers&workers=2`), true);
  is('in a frame there is no editor', await isShown('#text'), false);
  const whole = await page.evaluate('document.querySelector("#whole a").href');
  is('but the whole page is a click away', whole.includes('embed'), false);
  is('and it opens', await page.open(whole), true);
  is('with its editor', await isShown('#text'), true);
  await page.click('#copy-link');
  await has('of this computer', '#link-said', 'those alone who reach this computer');
  is('a whole link', (await valueOf('#link')).startsWith('http://127.0.0.1:'), true);
  server.close();
}

const PANEL = '#lesson-title';

// An exercise has an address, with its own text or without.
export async function testAddressOfLesson() {
  await open();
  await page.evaluate('localStorage.clear()');
  await open('#exercise=sum');
  await has('an exercise', PANEL, 'Exercise 7 of 20: sum');
  is('begins', (await valueOf('#text')).includes('; your lines'), true);
  await has('by its name', '#example option:checked', 'Exercise 7');
  await open('#exercise=2');
  await has('or by its number', PANEL, 'Exercise 2 of 20: double');
  await page.evaluate('document.getElementById("text").focus()');
  await page.insert('; mine\n');
  await page.until('location.hash.includes("text=")');
  await page.until('false', 0.6);
  const hash = await page.evaluate('location.hash');
  is('the address has it', hash.includes('exercise=double'), true);
  await open();
  is('there is none', await isShown(PANEL), false);
  await open(hash);
  await has('what was sent', PANEL, 'double');
  is('with its text', (await valueOf('#text')).startsWith('; mine\n'), true);
  await page.refresh();
  await page.until('document.documentElement?.hasAttribute("data-ready")');
  await has('loaded anew', PANEL, 'double');
  await page.click('#lesson-close');
  is('closed it is not in the address',
    await page.until('!location.hash.includes("exercise")', 5), true);
  await open('#puzzle=2');
  await has('a puzzle', PANEL, 'Find a schedule 2 of 3');
  await open('#tour=3');
  await has('a stop of the tour', PANEL, 'Tour 3 of');
  is('with what it shows', await isShown('#workers'), true);
  await open('#exercise=none');
  await has('no such one', '#link-said', 'there is no such lesson');
}

export async function testForm() {
  await open('#example=sum&view=workers');
  const said = (await text('#form')).replace(/\s+/g, ' ');
  is('the form', said.startsWith('This is the compact form of the board'), true);
  is('and that of run', said.includes('pramx run and watch use the wide form'), true);
}
