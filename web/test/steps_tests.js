// Steps that matter: memory accesses, lines, stops, changes of words, finished steps.
import { clicks, count, has, is, isShown, open, page, text, valueOf } from './drive.js';

export async function testAccesses() {
  await open('#example=maximum');
  await page.click('#access-on');
  is('the first access', await valueOf('#step'), '3');
  is('arrows', await page.evaluate('document.querySelectorAll(".arrow").length'), 16);
  await page.press('n', 'KeyN', 'n');
  is('the next one by key', await valueOf('#step'), '8');
  await page.click('#access-back');
  is('and back', await valueOf('#step'), '3');
  await clicks('#access-on', 8);
  await has('no other one', '#plain-said', 'No later memory access.');
}

// Of a program by its lines an access is one of a shared array or scalar.
export async function testAccessesOfPrograms() {
  await open('#example=prefix.pardo');
  await has('by lines', '#step-name', 'lines done');
  await page.click('#access-on');
  is('the first line that goes to A', await valueOf('#step'), '2');
  await page.press('n', 'KeyN', 'n');
  is('the next one by key', await valueOf('#step'), '5');
  await page.click('#access-back');
  is('a line back', await valueOf('#step'), '2');
  await page.press('p', 'KeyP', 'p');
  await has('none before', '#plain-said', 'No earlier memory access.');
  await page.press('p', 'KeyP', 'p');
  is('nor before the start', await valueOf('#step'), '0');
  await clicks('#access-on', 4);
  await has('none after', '#plain-said', 'No later memory access. Done:');
  await page.click('#access-back');
  is('the last one', await valueOf('#step'), '8');
}

export async function testLinesAndStops() {
  await open('#example=maximum');
  const line = (number, part) => `#gutter [data-line="${number}"] .${part}`;
  await page.click(line(32, 'number'));
  is('to a line', await valueOf('#step'), '14');
  await page.click(line(26, 'number'));
  is('to an earlier line', await valueOf('#step'), '8');
  await page.click(line(11, 'number'));
  await has('to no instruction', '#plain-said', 'No processor ever comes to line 11.');
  await page.click(line(32, 'stop'));
  await page.click('#to-stop');
  is('to a stop', await valueOf('#step'), '14');
  await page.click('#step-start');
  await page.choose('#plain-speed', '1000');
  await page.click('#plain-play');
  await page.until('document.getElementById("plain-play").ariaPressed === "false"', 5);
  is('playing ends at a stop', await valueOf('#step'), '14');
  await page.click('#no-stops');
  await page.click('#plain-play');
  is('and without stops at the end',
    await page.until('document.getElementById("step").value == 20', 5), true);
  await page.evaluate('document.getElementById("text").setSelectionRange(0, 0)');
  await page.click('#text');
  await page.evaluate('document.getElementById("text").setSelectionRange(0, 0)');
  await page.until('document.getElementById("to-line").textContent === "To line 1"', 5);
  await has('the line of the cursor', '#to-line', 'To line 1');
}

const marked = () => page.evaluate(`[...document.querySelectorAll('#gutter .stops')]
  .map((one) => one.dataset.line).join()`);

async function insertAt(offset, words) {
  await page.evaluate('document.getElementById("text").focus()');
  await page.evaluate(`document.getElementById("text").setSelectionRange(${offset}, ${offset})`);
  await page.insert(words);
  await page.until('!document.getElementById("text").classList.contains("waits")');
}

export async function testStopsMove() {
  await open('#example=maximum');
  const stop = (line) => page.click(`#gutter [data-line="${line}"] .stop`);
  await stop(11);
  await stop(13);
  await insertAt(0, '; one line\n; and one more\n');
  is('stops move with their lines', await marked(), '13,15');
  await insertAt(0, '; and');
  is('not where no line is new', await marked(), '13,15');
  await page.chord('z');
  await page.chord('z');
  is('and back with an undo', await marked(), '11,13');
  await page.evaluate(`(() => {
    const area = document.getElementById('text');
    const from = area.value.split('\\n').slice(0, 10).join('\\n').length + 1;
    area.setSelectionRange(from, area.value.indexOf('\\n', from) + 1);
  })()`);
  await page.press('Delete');
  await page.until('!document.getElementById("text").classList.contains("waits")');
  is('one goes with its line', await marked(), '12');
  await page.choose('#example', 'sum');
  is('another program has none', await marked(), '');
}

export async function testSeeking() {
  await open('#example=prefix&view=workers&workers=3');
  await page.click('#next-change');
  await has('the next change', '#steps li.changes', 'worker');
  is('it is the newest', await page.evaluate(
    'document.querySelector("#steps li").className'), 'changes');
  const first = await text('#moment-said');
  await page.press('n', 'KeyN', 'n');
  is('the next one by key', await text('#moment-said') === first, false);
  await page.click('#next-finish');
  await has('a finished step', '#outcome', 'Finished: 1 of 32 steps.');
  await page.press('f', 'KeyF', 'f');
  await has('the next one by key', '#outcome', 'Finished: 2 of 32 steps.');
  await page.click('#steps li:nth-child(5) button');
  const [now, all] = (await text('#moment-said')).replaceAll(',', '').split(' of ');
  is('a click on the list', Number(now), Number(all) - 4);
  await page.click('#next-finish');
  await has('forward in the schedule', '#moment-said', `${Number(all).toLocaleString('en')} of`);
  await page.click('#read-cells li:nth-child(6)');
  await page.click('#to-end');
  await has('the end', '#outcome', 'Done: the same answer');
  await page.click('#place-changes li:last-child button');
  await has('a click on a change', '#steps li', 'swaps the');
}

const KEYS = [['a', 'KeyA', 'a'], ['n', 'KeyN', 'n'], ['1', 'Digit1', '1'], [' ', 'Space', ' '],
  ['ArrowRight']];

// Where they do not act they are the browser's, which scrolls for a moment.
async function pressSome() {
  await page.evaluate('document.querySelector("[role=tabpanel]:not([hidden])").focus()');
  for (const key of KEYS) await page.press(...key);
  await page.until('false', 0.5);
}

async function switchKeys() {
  for (const part of ['.keys summary', '#single-keys', '.keys summary']) await page.click(part);
}

// Keys without Control are off, also where the page is opened anew, until they are on again.
export async function testKeysOff() {
  await open('#example=prefix&view=workers&workers=3');
  await switchKeys();
  await pressSome();
  is('by workers none acts', await text('#moment-said'), '0 of 0');
  await page.click('#all-1');
  await page.chord('z');
  is('but with Control', await text('#moment-said'), '0 of 0');
  await page.chord('y');
  is('each does', await text('#moment-said'), '3 of 3');
  await open('#example=maximum');
  await pressSome();
  is('in lockstep none acts', await valueOf('#step'), '0');
  await switchKeys();
  await page.evaluate('document.getElementById("lockstep").focus()');
  await page.press('ArrowRight');
  is('on again', await valueOf('#step'), '1');
  await open('#example=maximum');
  await page.press('ArrowRight');
  is('and when opened anew', await valueOf('#step'), '1');
}

export async function testFreshKeys() {
  await open();
  await page.until('!document.getElementById("machine").hidden', 5);
  await page.press('ArrowRight');
  is('→ on a fresh page', await valueOf('#step'), '1');
  await page.press(' ', 'Space', ' ');
  is('Space plays', await page.until('document.getElementById("step").value > 1', 5), true);
  await page.press(' ', 'Space', ' ');
  await open('#example=prefix&view=workers&workers=3');
  await page.press('ArrowRight');
  await has('→ by workers', '#moment-said', '1 of 1');
}

// The panel of growth: a row for each value, lines beside, and what is refused.
export async function testGrowth() {
  await open('#example=sum.pardo');
  await has('what stands above is told', '#cost-model', 'This run needs');
  await page.click('#growth summary');
  await page.click('#growth-run');
  await has('all values', '#growth-said', 'All values were tried.');
  is('a row for each', await count('#growth-table tr'), 7);
  is('the one that is shown', (await text('#growth-table tr:nth-child(4)')).startsWith('866'), true);
  is('the last', await text('#growth-table tr:nth-child(7)'), '641294,1284,128');
  is('is drawn', await count('#growth-plot path'), 6);
  await page.evaluate('document.getElementById("growth-picture").scrollIntoView()');
  await page.sightPicture('growth');
  await page.evaluate(`document.getElementById('growth-values').value = '8, x'`);
  await page.click('#growth-run');
  await has('no number', '#growth-said', 'The values are numbers, at most 12 of them.');
  await page.choose('#example', 'sum');
  is('no constant, no growth', await isShown('#growth'), false);
}
