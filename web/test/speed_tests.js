// How long a click takes, until the page is laid out anew and painted: with a bar.
import { writeAddress } from '../src/address.js';
import { Schedule } from '../src/schedule.js';
import { has, is, open, page, paste, valueOf, write } from './drive.js';
import { NAMES, answersOf } from './solutions.js';

// A click is to take 100 ms of the page's thread on a quiet machine. What the clock says depends on
// what else the machine does, and beside other work even the thread's own time does: so work that
// takes a known time on a quiet machine is measured before and after each click, and the bar is
// raised by as much as that took longer.
const BAR = 100;
const QUIET = 28;
const KNOWN_WORK = `(() => {
  let sum = 0;
  for (let k = 0; k < 6; k += 1) {
    const list = Array.from({ length: 10000 },
      (_, i) => ({ at: (i * 7919) % 10007, name: String(i) }));
    list.sort((one, other) => one.at - other.at);
    for (const { at, name } of list) sum += at * name.length;
  }
  return sum;
})()`;

const CODE = 'code\npid r0\nset r1 1\nagain: add r0 r0 r1\nld r2 r1\njmp again\n';

const loop = (cells, procs, steps) =>
  `pram 1\ncells ${cells}\nprocs ${procs}\nsteps ${steps}\n${CODE}`;

const linkTo = async (text, view) =>
  `#${await writeAddress({ text, view, step: 0, schedule: new Schedule(4) }, [])}`;

// Opens it, and waits until the browser is done with it.
async function openQuietly(hash) {
  await open(hash);
  for (let k = 0; k < 5; k += 1) await page.evaluate(KNOWN_WORK);
  await page.until('false', 1);
}

async function threadTime() {
  const { metrics } = await page.call('Performance.getMetrics');
  return 1000 * metrics.find(({ name }) => name === 'TaskDuration').value;
}

const FRAME = 'await new Promise((done) => { requestAnimationFrame(() => setTimeout(done)); });';

// By the thread's time and by the clock.
async function timesOf(work) {
  await page.call('Performance.enable', { timeDomain: 'threadTicks' });
  await page.evaluate(`(async () => { ${FRAME} })()`);
  const before = await threadTime();
  const clock = await page.evaluate(`(async () => {
    const start = performance.now();
    ${work};
    document.body.offsetHeight;
    const took = performance.now() - start;
    ${FRAME}
    return took;
  })()`);
  return { thread: await threadTime() - before, clock };
}

const knownWork = async () => (await timesOf(KNOWN_WORK)).thread;

async function isQuick(what, work) {
  const before = await knownWork();
  const { thread, clock } = await timesOf(work);
  const slower = Math.max(1, (before + await knownWork()) / 2 / QUIET);
  console.log(`  ${what}: ${thread.toFixed(0)} ms (${(thread / slower).toFixed(0)} on a quiet ` +
    `machine), by the clock ${clock.toFixed(0)} ms`);
  is(`${what} is quick`, thread < BAR * slower || thread / slower, true);
}

const clickOn = (what, selector) => isQuick(`${what} ${selector}`,
  `document.querySelector(${JSON.stringify(selector)}).click()`);

async function clicksOn(what, selectors) {
  for (const selector of selectors) await clickOn(what, selector);
}

// What is made in pieces or in a thread is to be there after a second, by the clock.
const PATIENCE = 1000;

// A reference is run on all inputs, and what is judged, too; the page says meanwhile that it judges.
const JUDGED = 2000;

async function isSoon(what, button, selector, wanted, patience = PATIENCE) {
  const before = await knownWork();
  const took = await page.evaluate(`(async () => {
    const start = performance.now();
    document.querySelector(${JSON.stringify(button)}).click();
    const told = document.querySelector(${JSON.stringify(selector)});
    while (!${wanted}.test(told.textContent)) await new Promise((done) => { setTimeout(done); });
    return performance.now() - start;
  })()`);
  const slower = Math.max(1, (before + await knownWork()) / 2 / QUIET);
  console.log(`  ${what}: ${took.toFixed(0)} ms by the clock`);
  is(`${what} is soon there`, took < patience * slower || took, true);
}

export async function testSpeedOfBitonic() {
  await openQuietly('#example=bitonic&view=workers&workers=4');
  await clicksOn('bitonic', ['#all-1', '#all-100', '#to-end']);
  await page.until('document.getElementById("outcome").textContent.startsWith("Done")');
  await clicksOn('bitonic, late', ['#moment-back', '#moment-back', '#plan-part summary',
    '#moment-back', '#cards li:nth-child(2) [data-action=lose]', '#undo-acts', '#moment-start',
    '#next-change', '#reset', '#undo-acts', '#tab-lockstep', '#access-on', '#step-end']);
  await open('#example=bitonic&view=workers&workers=4');
  await isSoon('bitonic, the end', '#to-end', '#outcome', /^Done/);
}

const choiceOf = (selector, value) => `(() => {
  const menu = document.querySelector(${JSON.stringify(selector)});
  menu.value = ${JSON.stringify(value)};
  menu.dispatchEvent(new Event('change', { bubbles: true }));
})()`;

export async function testSpeedOfLessons() {
  await open();
  await page.evaluate('localStorage.clear()');
  await openQuietly();
  for (const [k, name] of NAMES.entries()) {
    await isQuick(name, choiceOf('#lesson', `exercise ${k + 1}`));
    await write(answersOf(name, 'right')[0]);
    await clickOn(name, '#judge');
    await isSoon(`${name}, right`, '#judge', '#lesson-said', /^Right/, JUDGED);
  }
  await isQuick('a puzzle', choiceOf('#lesson', 'puzzle 1'));
  await clicksOn('a puzzle', ['#all-100', '#to-end']);
  await page.until('document.getElementById("outcome").textContent.startsWith("Done")');
  await clickOn('a puzzle', '#judge');
  await isQuick('the tour', choiceOf('#lesson', 'tour 1'));
  for (let k = 2; k <= 9; k += 1) await clickOn(`the tour, ${k}`, '#lesson-on');
  for (const example of ['bitonic', 'maximum', 'sort']) {
    await isQuick(example, choiceOf('#example', example));
  }
}

export async function testSpeedOfPrograms() {
  await openQuietly('#example=bitonic.pardo');
  await page.until('document.getElementById("step-name").textContent === "lines done"', 5);
  await clicksOn('bitonic.pardo', ['#step-on', '#step-on', '#step-on', '#access-on',
    '#access-back', '#step-back', '#step-end', '#step-back', '#by-machine', '#step-on',
    '#by-machine', '#tab-workers', '#all-100', '#tab-lockstep']);
  for (const example of ['components.pardo', 'matrix.pardo', 'maximum', 'prefix.pardo']) {
    await isQuick(example, choiceOf('#example', example));
    await page.until('false', 0.3);
  }
  await isQuick('a written program', `(() => {
    const area = document.getElementById('text');
    area.value = area.value.replace('n = 8', 'n = 16').replace('6\\n', '6, ...\\n');
    area.dispatchEvent(new InputEvent('input', { bubbles: true }));
  })()`);
}

export async function testSpeedOfManyInAProgram() {
  const lines = 'A[i] := A[i] + i\nif i >= 1 << h\nA[i] := A[i - 1 << h]\nend\n';
  const text = 'pardo 1\nrule common\nprocs i < 1024\nshared A[1024]\ncode\n' +
    `for h = 0 to 9\n${lines}end\n`;
  await openQuietly(await linkTo(text, 'lockstep'));
  await page.until('document.getElementById("step-name").textContent === "lines done"', 20);
  await clicksOn('a program of 1,024 processors',
    ['#step-on', '#step-on', '#step-on', '#step-end', '#step-back', '#step-start']);
  await isSoon('a program of 1,024 processors, the next access', '#access-on', '#plain-said',
    /A\[i\] := A\[i\] \+ i/);
  await clickOn('a program of 1,024 processors', '#access-on');
}

export async function testSpeedOfMany() {
  await openQuietly(await linkTo(loop(65536, 1024, 200), 'lockstep'));
  await clicksOn('1,024 processors', ['#step-on', '#access-on', '#step-end', '#step-back']);
  await clickOn('1,024 processors', '#tab-workers');
  await clicksOn('1,024 processors', ['#all-1', '#all-100', '#moment-back', '#next-finish']);
  await has('1,024 processors', '#outcome', 'Finished: 1 of 200');
  await isSoon('1,024 processors, the next finished step', '#next-finish', '#outcome',
    /^Finished: 2/);
}

export async function testSpeedOfLongSchedules() {
  await openQuietly(`${await linkTo(loop(4, 4, 4294967295), 'workers')}&acts=0.1.2.3*99990`);
  await clicksOn('400,000 acts', ['#moment-back', '#moment-on', '#all-1', '#plan-part summary',
    '#moment-back', '#save-plan', '#copy-link', '#moment-start', '#moment-end']);
}

export async function testSpeedOfFarSteps() {
  const far = await linkTo(loop(4, 4, 4294967295), 'lockstep');
  await openQuietly(far.replace('step=0', 'step=4000000'));
  await has('a link to a far step', '#plain-said', 'After step 4,000,000 of');
  await openQuietly(far);
  await page.until('document.getElementById("answer").textContent.includes("too far")');
  await clickOn('5,000,000 steps', '#step-end');
  await page.until('document.getElementById("plain-said").textContent.startsWith("After")');
  is('far steps are shown', await valueOf('#step'), '5000000');
  await clickOn('5,000,000 steps', '#step-back');
  await page.until('document.getElementById("plain-said").textContent.includes("4,999,999")');
  await clickOn('5,000,000 steps', '#access-back');
  is('far steps are searched',
    await page.until('document.getElementById("step").value === "4999998"', 20), true);
}

export async function testSpeedOfLongTexts() {
  await openQuietly();
  const lines = `'pram 1\\ncells 4\\nprocs 4\\nsteps 3\\ncode\\npid r0\\n' +
    '; a line\\n'.repeat(110000) + 'st r0 r0\\n'`;
  await isQuick('1 MB is pasted', paste(lines));
  await has('and is a program', '#answer', '4 cells');
  await has('that is shown', '#plain-said', 'After step 0 of 3.');
  await clicksOn('1 MB', ['#step-on', '#step-on', '#undo-text']);
  await clickOn('1 MB', '#redo-text');
  await isQuick('a line of 1 MB is pasted', paste('"x".repeat(1000000)'));
}
