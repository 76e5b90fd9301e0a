// browser_test.js PAGE EXAMPLES PICTURES [--firefox] [TEST..]: the page in Debian's Chromium, or in
// its Firefox, by real clicks and keys.
// Pictures of what a reader sees are saved to the folder PICTURES, to be looked at.
import { readFileSync, readdirSync } from 'node:fs';
import { join, resolve } from 'node:path';
import { deflateRawSync } from 'node:zlib';
import { writeAddress } from '../src/address.js';
import { Schedule } from '../src/schedule.js';
import { clicks, count, drive, end, has, is, isShown, open, page, picture, saved, text,
  valueOf, write } from './drive.js';
import * as adversary from './adversary_tests.js';
import * as heat from './heat_tests.js';
import * as languages from './language_tests.js';
import * as layout from './layout_tests.js';
import * as lessons from './lesson_tests.js';
import * as links from './link_tests.js';
import * as programs from './program_tests.js';
import * as speed from './speed_tests.js';
import * as steps from './steps_tests.js';
import * as typing from './typing_tests.js';
import * as works from './works_tests.js';

const [pagePath, examples, pictures, ...rest] = process.argv.slice(2);
const isFirefox = rest[0] === '--firefox';
const { withPage } = await import(isFirefox ? './firefox.js' : './browser.js');

async function testLockstep() {
  await open('#example=maximum');
  await has('a text of the machine', '#answer', 'done after 20 steps');
  await clicks('#step-on', 3);
  is('three steps', await valueOf('#step'), '3');
  await page.click('#step-back');
  is('one back', await valueOf('#step'), '2');
  await has('the mark in the text', '.mark.current .badge', 'P0-15');
  is('the marked line', await text('.line-number.current .number'), '20');
  await page.click('#step');
  await page.selectAll();
  await page.insert('14');
  await page.press('Enter', 'Enter', '\r');
  is('to step 14', await valueOf('#step'), '14');
  is('who is written', await text('#plain-cells li:nth-child(2) .cell-note'), 'written by P4, 12');
  is('arrows', await count('.arrow.write'), 16);
  await picture('lockstep');
  await page.click('#step-end');
  await has('the end', '#plain-said', 'the job ends after 20 steps');
  is('the answer', await text('#plain-cells li:nth-child(4) .cell-value'), '47');
  await page.click('#step-start');
  is('the start', await valueOf('#step'), '0');
}

async function testLockstepKeys() {
  await page.evaluate('document.getElementById("lockstep").focus()');
  for (const key of ['ArrowRight', 'ArrowRight', 'ArrowRight', 'ArrowLeft']) await page.press(key);
  is('keys on and back', await valueOf('#step'), '2');
  await page.press('End');
  is('key to the end', await valueOf('#step'), '20');
  await page.press('Home');
  is('key to the start', await valueOf('#step'), '0');
  await page.choose('#plain-speed', '20');
  await page.evaluate('document.getElementById("lockstep").focus()');
  await page.press(' ', 'Space', ' ');
  is('plays', await page.until('document.getElementById("step").value > 4', 5), true);
  await page.press(' ', 'Space', ' ');
  is('pauses', await page.evaluate('document.getElementById("plain-play").ariaPressed'), 'false');
  await page.click('#plain-play');
  is('plays to the end', await page.until('document.getElementById("step").value == 20', 10), true);
}

async function testConflict() {
  await page.choose('#example', 'conflict');
  await has('the answer of a conflict', '#answer', 'a conflict in step 4 at cell 0');
  await page.click('#step-end');
  await has('both processors', '#plain-said', 'Processor 0 writes 10 (line 15: st r1 r2). ' +
    'Processor 1 writes 11 (line 15: st r1 r2).');
  is('marked in the text', await count('.mark.clash'), 1);
  is('marked in the cell', await count('.cell.is-disputed'), 1);
  await picture('conflict');
}

// Where the answer of a program of the gallery stands.
const outOf = (file) => (file.endsWith('.pardo') ? `${file}.out` : file.replace('.pram', '.out'));

async function testGallery() {
  const files = readdirSync(examples).filter((name) => /\.(pram|pardo)$/.test(name));
  is('programs in the menu', await count('#example option'), files.length + 1);
  for (const file of files) {
    await page.choose('#example', file.replace(/\.pram$/, ''));
    const out = readFileSync(join(examples, outOf(file)), 'utf8');
    const [, told] = /^done steps=(\d+)/.exec(out) ?? [];
    const steps = told && Number(told).toLocaleString('en-US');
    await has(file, '#answer', steps ? `done after ${steps} steps` : 'a conflict in ');
    await page.click('#tab-workers');
    await page.choose('#worker-count', '2');
    await page.click('#to-end');
    await page.until('/^(Done|Conflict)/.test(document.getElementById("outcome").textContent) || ' +
      '!document.getElementById("full").hidden');
    // A long program fills its schedule before it ends.
    await has(`${file} by workers`, '#outcome', await isShown('#full')
      ? `of ${steps} steps` : 'the same answer as the plain machine');
    await page.click('#tab-lockstep');
  }
}

async function testFaults() {
  await open();
  const head = 'pram 1\ncells 2\nprocs 2\nsteps 2\ncode\n';
  await write(`${head}pid r0\nld r1\n`);
  is('a fault is said', await text('#fault'),
    'Line 7: the instruction has too few operands, or too many. “ld” needs two registers, as in ' +
    '“ld r1 r0”, or in pram 3 of an array A “ld r1 A r0”.');
  is('its line is marked', await text('.line-number.fault .number'), '7');
  is('no machine', await isShown('#machine'), false);
  await has('the menu', '#example option:checked', 'your own: pram 1');
  await picture('fault');
  await write(`${head}pid r0\nld r1 r0\n`);
  is('mended', await text('#fault'), '');
  is('a machine', await isShown('#machine'), true);
  await write('');
  await has('an empty text', '#fault', 'Line 1: ');
  await picture('empty');
}

const HOSTILE_TEXTS = [
  '<script>document.title = "bad"</script>',
  '</textarea><img src=x onerror=alert(1)>',
  'pram 1\ncells 1\nprocs 1\nsteps 1\ncode\n<b>x</b>',
  '\u0000\uffff\ud800',
  '𝔘𝔫𝔦',
  '\r\r\r',
  ';'.repeat(5000),
];

async function testHostile() {
  for (const content of HOSTILE_TEXTS) {
    await write(content);
    is(`hostile ${JSON.stringify(content.slice(0, 20))}`, (await text('#fault')).length > 0, true);
  }
  is('no markup came in', await count('#program img, #program b, #program script'), 0);
  await write('pram 1\ncells 65536\nprocs 1024\nsteps 4294967295\ncode\n'
    + 'set r1 1\nagain: add r0 r0 r1\njmp again\n');
  await has('an endless job', '#answer', 'too far for this page');
  await page.click('#step-on');
  is('it is stepped', await valueOf('#step'), '1');
  await picture('largest');
  await page.click('#tab-workers');
  await page.click('#all-100');
  await has('the largest tree', '#tree-summary', 'of 2,047 nodes');
  await picture('largest-workers');
  await page.click('#tab-lockstep');
}

const linkTo = (content) =>
  writeAddress({ text: content, view: 'lockstep', step: 0, schedule: new Schedule(2) }, []);

// What a copy would put on the clipboard.
const COPIED = `(() => {
  const data = new DataTransfer();
  const how = { clipboardData: data, bubbles: true, cancelable: true };
  document.getElementById('text').dispatchEvent(new ClipboardEvent('copy', how));
  return data.getData('text/plain');
})()`;

// All of a text that a window shows a part of.
async function testAllOfLongText(lines) {
  await page.evaluate('document.getElementById("text").focus()');
  await page.selectAll();
  is('all is copied', await page.evaluate(COPIED) === lines, true);
  await page.press('ArrowLeft');
  is('a part is none of all', await page.evaluate(COPIED), '');
  await page.selectAll();
  await page.insert('pram 1');
  await has('what is written takes its place', '#fault', 'Line 1: ');
  is('it is all', await valueOf('#text'), 'pram 1');
  await page.chord('z');
  await has('and undone', '#answer', '4 cells');
  await page.selectAll();
  await page.press('Delete');
  await page.until('document.getElementById("text").value === ""', 5);
  is('all is deleted', await valueOf('#text'), '');
  await page.chord('z');
  await has('and is there again', '#answer', '4 cells');
}

// They come by a link: Chromium itself takes minutes to write so many lines into any text area.
async function testLongTexts() {
  const comments = '; a line\n'.repeat(110000);
  const lines = `pram 1\ncells 4\nprocs 4\nsteps 3\ncode\npid r0\n${comments}st r0 r0\n`;
  await open(`#${await linkTo(lines)}`);
  await has('a text of 1 MB', '#answer', '4 cells');
  await has('is shown', '#plain-said', 'After step 0 of 3.');
  await page.click('#lines input');
  await page.selectAll();
  await page.insert('110000');
  await page.press('Enter', 'Enter', '\r');
  is('its last line', await text('#gutter > :nth-child(8) .number'), '110007');
  is('that is written in', (await valueOf('#text')).endsWith('st r0 r0\n'), true);
  await page.evaluate('document.getElementById("text").focus()');
  await page.evaluate('document.getElementById("text").setSelectionRange(0, 0)');
  await page.insert('oops\n');
  await has('what is written there', '#fault', 'Line 110,000: ');
  await page.chord('z');
  await has('and undone', '#answer', '4 cells');
  await picture('long-text');
  await testAllOfLongText(lines);
  await open(`#${await linkTo('x'.repeat(1000000))}`);
  await has('a line of 1 MB', '#fault', 'Line 1: ');
  is('its words are cut', (await text('#fault')).length < 1000, true);
  const bomb = deflateRawSync(Buffer.alloc(17000000, ';')).toString('base64url');
  await open(`#text=${bomb}`);
  await has('a text of 17 MB', '#link-said', "can't be read");
}

async function testWorkers() {
  await open('#example=prefix');
  await page.click('#tab-workers');
  await page.choose('#worker-count', '3');
  is('three workers', await count('#cards > li'), 3);
  await page.click('#cards li:nth-child(2) [data-action=step]');
  is('one step', await text('#moment-said'), '1 of 1');
  await has('its meaning', '#steps li', 'worker 1 reads the root: nothing finished');
  await page.click('#all-1');
  is('all step', await text('#moment-said'), '4 of 4');
  await page.click('#all-10');
  await page.click('#all-100');
  is('rounds', await text('#moment-said'), '334 of 334');
  await page.click('#cards li:nth-child(3) [data-action=sleep]');
  await has('asleep', '#cards li:nth-child(3) h4', 'asleep');
  await page.click('#all-1');
  is('the sleeper makes no step', await text('#moment-said'), '337 of 337');
  await page.click('#cards li:nth-child(3) [data-action=sleep]');
  await has('awake', '#cards li:nth-child(3) h4', 'awake');
  await page.click('#cards li:nth-child(2) [data-action=lose]');
  await has('lost', '#cards li:nth-child(2) h4', 'lost');
  await page.click('#all-10');
  await page.click('#cards li:nth-child(2) [data-action=lose]');
  await has('back', '#cards li:nth-child(2) .standing', 'is about to read where it stood');
  await has('said', '#steps li', 'worker 1 comes back, knowing nothing');
  await page.click('#cards li:nth-child(2) [data-action=step]');
  await has('reads its position', '#steps li', 'worker 1 reads the position of worker 1');
}

async function testPlan() {
  await page.click('#plan-part summary');
  await page.until("document.querySelector('#plan-said').textContent !== ''", 5);
  await has('the command', '#plan-said', 'pramx replay program.pram --workers 3 --plan plan.csv');
  is('the plan', (await text('#plan')).startsWith('worker,act,ticks\n1,go,1\n0,go,1\n'), true);
  const file = await saved('#save-plan', 'plan.csv');
  const shown = await text('#plan');
  is('the plan file', file.startsWith(shown) && file.length > shown.length, true);
  is('rows of it that are shown', shown.split('\n').length, 202);
}

async function testTwinsAndTime() {
  await page.click('#cards li:nth-child(1) [data-action=twin]');
  is('a twin', await count('#cards > li'), 4);
  await has('its name', '#cards li:nth-child(4) h4', 'twin 3 (of worker 0)');
  await has('no plan for twins', '#plan-said', 'A plan has no twins');
  await page.click('#plan-part summary');
  await clicks('#all-100', 8);
  await page.click('#read-cells li:nth-child(5)');
  await picture('workers');
  const before = await text('#moment-said');
  await page.click('#moment-back');
  await page.click('#moment-start');
  await has('time goes back', '#moment-said', '0 of ');
  is('no twin yet', await count('#cards > li'), 3);
  await page.evaluate('document.getElementById("moment").focus()');
  await page.press('ArrowRight');
  await has('the slider by key', '#moment-said', '1 of ');
  await page.click('#moment-on');
  await page.click('#moment-end');
  is('and forward', await text('#moment-said'), before);
}

async function testEnds() {
  await page.click('#cards li:nth-child(2) [data-action=if]');
  await has('what if', '#outcome', 'What if worker 1 is lost at moment');
  await has('the others finish', '#outcome', 'the same answer as the plain machine');
  await has('it is lost', '#cards li:nth-child(2) h4', 'lost');
  await picture('what-if');
  await page.click('#before');
  await has('back to what was', '#cards li:nth-child(2) h4', 'awake');
  await page.click('#to-end');
  await has('to the end', '#outcome', 'Done: the same answer');
  is('the cells', await text('#read-cells li:nth-child(12) .cell-value'), '31');
  is('their step', await text('#read-cells li:nth-child(12) .cell-note'), 'step 32');
  await page.choose('#place-kind', 'register');
  await page.click('#place-number');
  await page.selectAll();
  await page.insert('3');
  await page.choose('#place-register', '1');
  await has('a register', '#place-said', 'r1 of processor 3: ');
  await page.choose('#place-kind', 'counter');
  await has('a counter', '#place-said', 'the counter of processor 3: ');
  is('its changes', await count('#place-changes li') > 5, true);
  await picture('end');
  await page.click('#reset');
  is('again', await text('#moment-said'), '0 of 0');
}

async function testWorkersKeys() {
  await page.evaluate('document.getElementById("workers").focus()');
  await page.press('a', 'KeyA', 'a');
  await page.press('2', 'Digit2', '2');
  is('keys step all and one', await text('#moment-said'), '4 of 4');
  await page.press('ArrowLeft');
  is('a key goes back', await text('#moment-said'), '3 of 4');
  await page.choose('#speed', '25');
  await page.click('#play');
  is('plays', await page.until('+document.getElementById("moment").value > 30', 5), true);
  await page.click('#play');
  is('pauses', await page.evaluate('document.getElementById("play").ariaPressed'), 'false');
}

const HOSTILE_ADDRESSES = ['#text=%00', '#text=AAAA', '#acts=0*99999999', '#workers=900',
  '#example=__proto__', '#workers=2&acts=x9', '#step=-1', '#%', '#&&=&'];

async function testLink() {
  await page.click('#copy-link');
  await page.until('location.hash.includes("acts=")');
  const hash = await page.evaluate('location.hash');
  const moment = await text('#moment-said');
  await open(hash);
  is('a link carries the moment', await text('#moment-said'), moment);
  is('and the view', await isShown('#workers'), true);
  is('and the workers', await count('#cards > li'), 3);
  await write('pram 1 ; “own”\n');
  await has('own text', '#fault', 'The character ““” in column 10');
  await page.until('location.hash.includes("text=")');
  await open(await page.evaluate('location.hash'));
  is('a link carries a text', await valueOf('#text'), 'pram 1 ; “own”\n');
  for (const bad of HOSTILE_ADDRESSES) {
    await open(bad);
    await has(`a hostile address ${bad}`, '#answer', 'done after 72 steps');
  }
}

async function testReading() {
  await open('#example=prefix&view=workers&workers=4&acts=0.1.2.3*100');
  await page.call('Accessibility.enable');
  const { nodes } = await page.call('Accessibility.getFullAXTree');
  const roles = ['button', 'textbox', 'combobox', 'slider', 'spinbutton', 'tab', 'link'];
  const unnamed = nodes.filter((node) =>
    roles.includes(node.role?.value) && !node.ignored && !node.name?.value);
  is('every control has a name', unnamed.map((node) => node.role.value).join(), '');
  const seen = new Set();
  await page.evaluate('document.activeElement.blur(), scrollTo(0, 0)');
  for (let k = 0; k < 120; k += 1) {
    await page.press('Tab');
    seen.add(await page.evaluate(`(() => {
      const now = document.activeElement;
      now.dataset.seen = '1';
      return now.tagName;
    })()`));
  }
  const missed = await page.evaluate(`(() => {
    const controls = 'button, input, select, textarea, a, summary';
    const isMissed = (one) => one.checkVisibility() && !one.disabled && one.tabIndex >= 0 &&
      !one.dataset.seen;
    return [...document.querySelectorAll(controls)].filter(isMissed)
      .map((one) => one.id || one.textContent).join();
  })()`);
  is('Tab reaches every control', missed, '');
}

const SIZES = [
  [360, 740, 'light'], [768, 1024, 'dark'], [1920, 1080, 'dark'], [3840, 2160, 'light'],
];

async function testWidths() {
  for (const [width, height, scheme] of SIZES) {
    await page.resize(width, height);
    await page.setScheme(scheme);
    for (const view of ['lockstep', 'workers']) {
      await open(`#example=levels&view=${view}&step=20&workers=5&acts=0.1.2.3.4*900`);
      const wide = await page.evaluate('document.documentElement.scrollWidth');
      is(`${view} fits ${width}`, wide <= width || wide, true);
      await picture(`${view}-${width}-${scheme}`);
    }
  }
  await page.resize(1280, 900);
  await page.setScheme('light');
}

const OWN = [testLockstep, testLockstepKeys, testConflict, testGallery, testFaults, testHostile,
  testLongTexts, testWorkers, testPlan, testTwinsAndTime, testEnds, testWorkersKeys, testLink,
  testReading, testWidths];
const MODULES = [works, typing, programs, layout, steps, lessons, links, heat, languages,
  adversary, speed];
const TESTS = [...OWN, ...MODULES.flatMap((module) => Object.values(module))];

// With names after the folders only the tests of these names are made.
const names = isFirefox ? rest.slice(1) : rest;

await withPage(async (opened, scratch) => {
  drive(opened, {
    address: `file://${resolve(pagePath)}`, pictures, downloads: scratch, examples,
  });
  page.pictures = pictures;
  await page.resize(1280, 900);
  for (const test of TESTS) {
    if (names.length > 0 && !names.includes(test.name)) continue;
    console.log(test.name);
    await test().catch(({ message }) => is(`${test.name} ends`, message, ''));
  }
  is('no exception and no error', page.exceptions.join('; '), '');
});
end();
