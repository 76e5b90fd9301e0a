// Programs of `pardo`: one mark in the text, the active processors lit, names, and lines as steps.
import { readFileSync } from 'node:fs';
import { join } from 'node:path';
import { writeAddress } from '../src/address.js';
import { Schedule } from '../src/schedule.js';
import { clicks, count, folders, has, is, isShown, open, page, picture, saved, text, valueOf,
  write } from './drive.js';

const EACH = (selector) => page.evaluate(`[...document.querySelectorAll(
  ${JSON.stringify(selector)})].map((one) => one.textContent).join(' ')`);

const lineOf = (program, words) => readFileSync(join(folders.examples, `${program}.pardo`), 'utf8')
  .split('\n').findIndex((line) => line.includes(words)) + 1;

// Opens a program, which is compiled then.
async function openProgram(hash) {
  await open(hash);
  is('it is compiled', await page.until(
    'document.getElementById("answer").textContent.includes("done after")'), true);
}

const CONFLICT = `pardo 1
rule common
procs i < 4
shared sum = 10
private mine = i + 1
code
mine := mine * 2
sum := sum + mine
`;

const GONE = `pardo 1
rule crew
procs i < 4
shared A[3] = 5, 6, 7
shared found
code
if i > 1
   A[i] := A[i] + 1
end
if i = 0
   found := A[0]
end
`;

export async function testProgramByLines() {
  await open();
  await has('the first example', '#answer', 'A = 3 4 8 9 14 23 25 31.');
  const line = lineOf('prefix', 'A[i] :=');
  is('the first line', await text('.line-number.next .number'), `${lineOf('prefix', 'for h')}`);
  await clicks('#step-on', 2);
  is('two lines', await valueOf('#step'), '2');
  is('one arrow in the text', await count('.line-number.next'), 1);
  is('at the line', await text('.line-number.next .number'), `${line}`);
  is('no other mark', await count('.mark.current, .mark.clash'), 1);
  is('with those that are active', await text('.mark.current .badge'), 'P1-7');
  is('which are lit', await EACH('#strip .is-active'), 'P1 P2 P3 P4 P5 P6 P7');
  is('and the others are not', await EACH('#strip .stopped'), 'P0');
  await has('in words', '#plain-said', `Line ${line}: A[i] := A[i] + A[i - 1 << h]. P1-7, 7 of ` +
    '8, are active with h = 0.');
  is('arrays by name', await text('#plain-cells li:nth-child(3) .cell-number'), 'A[2]');
  is('shared cells alone', await count('#plain-cells li'), 8);
  is('who reads', await text('#plain-cells li:nth-child(2) .cell-note'),
    'read by P1-2, written by P1');
  is('all arrows of the line', [await count('.arrow.read'), await count('.arrow.write')].join(),
    '14,7');
  is('who waits', await text('#program-processors tr.stopped td'), 'waits');
  await picture('program');
  await page.click('#step-on');
  is('what was written', await count('.cell.is-new'), 7);
  is('the sums', await EACH('#plain-cells .cell-value'), '3 4 5 5 6 14 11 8');
  await page.press('ArrowLeft');
  is('a key goes a line back', await valueOf('#step'), '2');
  await page.press('End');
  await has('the end', '#plain-said', 'Done: the program is over after 10 lines, 72 steps of');
  is('the answer', await EACH('#plain-cells .cell-value'), '3 4 8 9 14 23 25 31');
  is('no arrow at the end', await count('.line-number.next'), 0);
}

export async function testProgramLinesAndStops() {
  await openProgram('#example=prefix.pardo');
  const line = lineOf('prefix', 'A[i] :=');
  const part = (name) => `#gutter [data-line="${line}"] .${name}`;
  await page.click(part('number'));
  is('to a line', await valueOf('#step'), '2');
  await page.click(part('number'));
  is('to it once more', await valueOf('#step'), '5');
  await page.click(part('stop'));
  await page.click('#to-stop');
  is('to a stop', await valueOf('#step'), '8');
  await page.click('#step-start');
  await page.choose('#plain-speed', '1000');
  await page.click('#plain-play');
  await page.until('document.getElementById("plain-play").ariaPressed === "false"', 5);
  is('playing ends at a stop', await valueOf('#step'), '2');
  await page.click('#no-stops');
  await page.click('#plain-play');
  is('and without stops at the end',
    await page.until('document.getElementById("step").value == 10', 5), true);
  await page.click('#plot');
  await has('a click on the plot', '#plain-said', 'Line ');
}

export async function testMachineSteps() {
  await openProgram('#example=prefix.pardo');
  await clicks('#step-on', 2);
  await page.click('#by-machine');
  is('the steps of the machine', await valueOf('#step'), '11');
  is('with registers', await count('#processors thead th'), 10);
  is('the table of lines goes', await isShown('#program-processors'), false);
  await has('an instruction', '#processors tbody tr', 'ld r0 mask1 r3');
  is('all cells', await count('#plain-cells li'), 24);
  is('those of masks', await text('#plain-cells li:last-child .cell-number'), 'mask 1 of P7');
  await page.click('#step-on');
  is('one by one', await valueOf('#step'), '12');
  is('within the line', await count('.mark.current'), 1);
  await page.click('#by-machine');
  is('back to the line', await valueOf('#step'), '2');
  await page.choose('#example', 'maximum');
  await has('a text of the machine', '#answer', 'done after 20 steps');
  is('has its steps alone', await isShown('#machine-choice'), false);
  is('and its numbers', await text('#plain-cells li:nth-child(3) .cell-number'), '2');
}

export async function testProgramConflict() {
  await open();
  await write(CONFLICT);
  await has('the answer', '#answer', 'a conflict in line 8 at sum, between processors 0 and 1.');
  is('private variables', await EACH('#program-processors thead th'),
    'processor in this line mine');
  is('of each', await EACH('#program-processors td:nth-child(3)'), '1 2 3 4');
  await page.click('#step-end');
  await has('both processors', '#plain-said', 'Conflict: line 8 is against the rule common, at ' +
    'sum: processor 0 writes 12, processor 1 writes 14.');
  is('after the line before', await EACH('#program-processors td:nth-child(3)'), '2 4 6 8');
  is('marked in the text', await text('.line-number.clash .number'), '8');
  is('marked in the cell', await count('.cell.is-disputed'), 1);
  await has('why no weaker model', '#cost-reasons',
    'Not EREW: in line 8, step 5, processors 0 and 1 read sum.');
  await picture('program-conflict');
}

export async function testProgramGone() {
  await open();
  await write(GONE);
  await has('who is lost', '#ends', 'Processor 3 stopped in step');
  await has('in its line', '#ends', 'at line 8: its array has no such place.');
  await page.click('#step-end');
  await has('is gone', '#program-processors tbody tr:nth-child(4)',
    'gone: line 8 has no such place');
  is('the others are done', await text('#program-processors tbody tr:nth-child(3) td'), 'done');
  is('cells by name', await EACH('#plain-cells .cell-number'), 'A[0] A[1] A[2] found');
  is('what they hold', await EACH('#plain-cells .cell-value'), '5 6 8 5');
}

export async function testProgramByWorkers() {
  await openProgram('#example=prefix.pardo&view=workers&workers=3');
  await has('cells by name', '#read-cells li:nth-child(3) .cell-number', 'A[2]');
  await page.click('#next-finish');
  await page.click('#next-finish');
  is('the line that is worked on', await text('.line-number.next .number'),
    `${lineOf('prefix', 'for h')}`);
  await has('its step', '.mark.current .badge', 'step 2');
  await page.click('#read-cells li:nth-child(2)');
  await has('a place by name', '#place-said', 'A[1]');
  await page.click('#to-end');
  await has('the same answer', '#outcome', 'the same answer as the plain machine');
  await page.click('#plan-part summary');
  await has('the file', '#plan-said', 'pramx replay program.pardo');
  const file = await saved('#save-text', 'program.pardo');
  is('is saved', file, await valueOf('#text'));
}

const REFUSED = [
  ['pardo 1\nrule common\nprocs i < 4\ncode\ni := é\n', 'Line 5: ', '“é” in column 6'],
  ['pardo 1\nrule common\nprocs i < 4\ncode\nx # 1\n', 'Line 5: ', 'It is “#”'],
  ['pardo 1\nrule comon\n', 'Line 2: ', 'The lines before “code” are'],
  ['pardo 1\nrule common\nprocs i < 4\nshared s\ncode\ns = 1\n', 'Line 6: ', '“:=” assigns'],
  ['pardo 1\nrule common\nprocs i < 4\ncode\ns := 1\n', 'Line 5: ', 'not known'],
  ['pardo 1\nrule common\nprocs i < 4\nshared i\n', 'Line 4: ', 'It is “i”.'],
  ['pardo 1\nrule common\nprocs i < 4\nshared A[4]\ncode\nA := 1\n', 'Line 6: ', 'needs an index'],
  ['pardo 1\nrule common\nprocs i < 4\nshared s\ncode\ns := 2 ^ s\n', 'Line 6: ', 'exclusive or is xor'],
  ['pardo 1\nrule common\nprocs i < 0\n', 'Line 3: ', '65,536'],
  ['pardo 1\nrule common\nprocs i < 4\nshared A[4] = 1\n', 'Line 4: ', 'values'],
  ['pardo 1\nrule common\nprocs i < 1024\nshared A[1048576]\nprivate x\n', 'Line 5: ', '1,048,576'],
  ['pardo 1\nrule common\nprocs i < 4\ncode\nend\n', 'Line 5: ', 'belongs to nothing'],
  ['pardo 1\nrule common\nprocs i < 4\ncode\nif i = 0\n', 'Line 6: ', 'needs an end'],
  ['pardo 1\nrule common\nprocs i < 4\ncode\n', 'Line 5: ', 'no line of code'],
  ['pardo 1\nrule common\nprocs i < 2\nshared s\ncode\nwhile 1\n   s := 1\nend\n', 'Line ',
    'still here after 1,048,576 steps'],
  ['pardo 1\nrule common\nprocs i < 1025\nshared s\ncode\ns := 1\n',
    'The page shows up to 1,024 processors', 'here are 1,025'],
];

export async function testProgramRefusals() {
  await open();
  for (const [content, line, words] of REFUSED) {
    await write(content);
    await has(`${JSON.stringify(content.slice(-20))}: line`, '#fault', line);
    await has(`${JSON.stringify(content.slice(-20))}: words`, '#fault', words);
    is('no machine', await page.until('!document.getElementById("machine").checkVisibility()', 5),
      true);
  }
  await picture('program-fault');
}

const MANY = `pardo 1
rule common
const n = 1024
procs i < n
shared A[n] = 1, ...
code
for h = 0 to lg(n) - 1
   if i >= 1 << h
      A[i] := A[i] + A[i - 1 << h]
   end
end
`;

const linkToMany = async (view) =>
  `#${await writeAddress({ text: MANY, view, step: 0, schedule: new Schedule(2) }, [])}`;

export async function testManyProcessors() {
  await open(await linkToMany('lockstep'));
  await has('1,024 processors', '#answer', 'A = 1 2 3 4 5');
  is('by lines', await page.until(
    'document.getElementById("step-name").textContent === "lines done"', 10), true);
  await clicks('#step-on', 2);
  await has('who is active', '#plain-said', 'P1-1023, 1,023 of 1,024, are active with h = 0');
  await page.click('#step-end');
  is('the last value', await page.until(
    'document.getElementById("plain-said").textContent.startsWith("Done: the program")', 10), true);
  await open(await linkToMany('workers'));
  is('by workers the line is marked once it is told', await page.until(
    'document.querySelectorAll(".line-number.next").length === 1'), true);
}
