// While one writes: the machine stays, the step is kept, faults are told after a pause and mended by
// a click, and the text has colours.
import { clicks, count, has, is, isShown, isTold, open, page, text, valueOf, write }
  from './drive.js';

const PARDO = 'pardo 1\nrule common\nprocs i < 4\nshared A[4]\ncode\n';
const LINES = 'A[i] := i\nA[i] := A[i] + 1\nA[i] := A[i] * 2\n';

// Types where the cursor is put: after these words.
async function typeAfter(words, typed) {
  await page.evaluate(`(() => {
    const area = document.getElementById('text');
    const at = area.value.indexOf(${JSON.stringify(words)}) + ${words.length};
    area.focus();
    area.setSelectionRange(at, at);
  })()`);
  await page.insert(typed);
}

export async function testMachineStays() {
  await open();
  await write(PARDO + LINES);
  await has('it runs', '#answer', 'done after 9 steps');
  await clicks('#step-on', 2);
  is('the machine stands at the third line', await text('.line-number.next .number'), '8');
  await typeAfter('A[i] + ', '(');
  is('nothing is told at once', await text('#fault'), '');
  is('no fault is marked yet', await count('.line-number.fault'), 0);
  await isTold();
  await has('after a pause it is', '#fault', 'Line 7: ');
  is('its role is polite', await page.evaluate('document.getElementById("fault").role'), 'status');
  is('it is marked', await text('.line-number.fault .number'), '7');
  is('the machine stays', await isShown('#machine'), true);
  is('marked as such', await text('#stale'), 'The machine stays on the last text that had no fault.');
  is('at its line', await valueOf('#step'), '2');
  await has('in its words', '#plain-said', 'Line 8: A[i] := A[i] * 2.');
  await page.click('#step-on');
  await has('it goes on', '#plain-said', 'Done:');
  await page.click('#step-back');
  await page.chord('z');
  await has('right again', '#answer', 'done after');
  is('no longer marked as such', await isShown('#stale'), false);
  await page.choose('#example', 'sum');
  await write('');
  is('of no text there is none', await isShown('#machine'), false);
}

export async function testStepIsKept() {
  await open();
  await write(PARDO + LINES);
  await has('it runs', '#answer', 'done after 9 steps');
  await clicks('#step-on', 2);
  await typeAfter('code\n', '; one more\n');
  await isTold();
  await page.until('document.querySelector(".line-number.next .number")?.textContent === "9"', 5);
  is('the line goes with its text', await text('.line-number.next .number'), '9');
  is('the step is kept', await valueOf('#step'), '2');
  await typeAfter('; one more\n', 'A[i] := 7\n');
  await page.until('document.getElementById("step").value === "3"', 5);
  is('a line before it is done', await valueOf('#step'), '3');
  await write(PARDO + LINES.replace('A[i] := A[i] * 2\n', ''));
  await page.until('document.getElementById("step").value === "0"', 5);
  is('a line that is gone', await valueOf('#step'), '0');
}

export async function testFixes() {
  await open();
  await write(`${PARDO}A[i] = 1\n`);
  await has('a fix', '#fixes button', 'Write “A[i] := 1”');
  await page.click('#fixes button');
  await has('mends it', '#answer', 'done after');
  is('the text', await valueOf('#text'), `${PARDO}A[i] := 1\n`);
  is('it is gone', await isShown('#fixes'), false);
  await page.chord('z');
  is('and is undone', await valueOf('#text'), `${PARDO}A[i] = 1\n`);
  await write(`${PARDO}if i == 1\n   A[i] := 1\n`);
  await has('two slips, one after the other', '#fixes button', 'Write “if i = 1”');
  await page.click('#fixes button');
  await has('the second one', '#fixes button', 'Write “end”');
  await page.click('#fixes button');
  await has('both are mended', '#answer', 'done after');
  await write('pram 1\n');
  is('none of a text of the machine', await isShown('#fixes'), false);
}

export async function testColours() {
  await open('#example=sort.pardo');
  is('words', await text('#colours .word'), 'pardo');
  is('numbers', await text('#colours .number'), '1');
  is('comments', await count('#colours .comment') > 2, true);
  const same = await page.evaluate(`(() => {
    const rows = [...document.querySelectorAll('#colours div')].map((row) => row.textContent);
    return document.getElementById('text').value.startsWith(rows.join('\\n').trimEnd());
  })()`);
  is('all of the text in sight', same, true);
  await page.click('#text');
  await typeAfter('if at', ' ');
  is('the pair of a block', await page.evaluate(`[...document.querySelectorAll('.of-block')]
    .map((row) => row.textContent.trim()).join('|')`), 'if at  < n - 1|end');
  await page.evaluate('document.getElementById("text").blur()');
  is('none without a cursor', await count('.of-block'), 0);
  await write(`; ${'x'.repeat(2000)}\n`);
  is('a long line has none', await page.evaluate(
    'getComputedStyle(document.getElementById("text")).color !== "rgba(0, 0, 0, 0)"'), true);
}
