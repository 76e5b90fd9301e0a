// What a lecture needs: ends, costs, the plot of the steps, exercises, puzzles and the tour.
import { writeAddress } from '../src/address.js';
import { Schedule } from '../src/schedule.js';
import { count, focused, has, is, isShown, open, page, picture, saved, text, valueOf, write }
  from './drive.js';
import { NAMES, NO_SCHEDULES, SCHEDULES, answerOf, answersOf, exerciseText } from './solutions.js';

const LEAVING = 'pram 1\ncells 2\nprocs 2\nsteps 3\ncode\n' +
  'pid r0\nadd r1 r0 r0\nst r1 r0\nhalt\n';

export async function testEndsInWords() {
  await open('#example=maximum');
  await has('all have stopped', '#ends', 'All had stopped after step 20.');
  await write(LEAVING);
  await has('who still runs', '#ends', 'It ended with 1 processor still running (P0 in line 9).');
  await has('who is lost', '#ends', 'Processor 1 stopped in step 3 at line 8: no such cell.');
  await page.click('#step-end');
  await has('at the end', '#plain-said', 'the job ends after 3 steps. It ended with 1 processor');
  await has('what it executed last', '#processors tr.stopped',
    'no such cell in step 3, 8: st r1 r0');
  await page.click('#tab-workers');
  await page.click('#to-end');
  await has('by workers', '#outcome', 'the same answer as the plain machine’s. It ended with 1 ' +
    'processor still running (P0 in line 9). Processor 1 stopped in step 3 at line 8');
  await page.choose('#example', 'conflict');
  await has('a conflict', '#answer', 'a conflict in step 4');
  is('has no end', await text('#ends'), '');
}

export async function testCosts() {
  await open('#example=maximum');
  await has('the model', '#cost-model', 'This run needs CRCW common. With other values at the ' +
    'start the same program may cost more');
  is('its numbers', await page.evaluate(`[...document.querySelectorAll('#cost-numbers dd')]
    .map((one) => one.textContent).join(' ')`), '20 16 320 312 16 3 2');
  await has('a reason', '#cost-reasons li:nth-child(2)',
    'Not CREW: in step 15 processors 4 and 12 write cell 1.');
  is('of a text of the machine no line is spoken of',
    (await text('#cost-model')).includes('a line is several'), false);
  await page.click('#cost-reasons li:nth-child(2) button');
  is('a click goes to the step', await valueOf('#step'), '14');
  await page.choose('#example', 'sum');
  await has('a weaker model', '#cost-model', 'This run needs');
  await open('#example=sum.pardo&step=12');
  await has('two read one place in a line', '#plain-cells li:nth-child(3) .cell-note', 'P');
  await has('yet not in one step', '#cost-model', 'This run needs EREW. With other values at the ' +
    'start the same program may cost more, and need a stronger model. A model is judged by the ' +
    'steps of the machine, of which a line is several: two who read one place in a line may read ' +
    'it in different steps.');
}

export async function testPlot() {
  await open('#example=maximum');
  await has('the first step', '#plot-said', 'Step 1: 0 read a cell, 0 write one.');
  is('all steps', await text('#plot-range'), 'steps 1 to 20');
  await page.click('#plot');
  const step = Number(await valueOf('#step'));
  is('a click in the middle', step === 9 || step === 10 || step, true);
  await has('says that step', '#plot-said', `Step ${step + 1}: 0 read a cell`);
  await page.evaluate('document.getElementById("plot-step").focus()');
  await page.press('ArrowRight');
  is('keys go on', await valueOf('#step'), `${step + 1}`);
  const now = await page.evaluate('document.querySelector("#plot .now").getAttribute("x")');
  is('the step is marked', now, `${step + 1}`);
  await page.click('#step-end');
  is('nothing comes after the end', await text('#plot-said'), '');
}

// An answer to the exercise whose text is in the editor, as one who began there has it.
const begunWith = async (answer) => `${(await valueOf('#text')).split('\n', 1)[0]}\n${answer}`;

async function judged(what, wanted) {
  await page.click('#judge');
  await page.until('!document.getElementById("lesson-said").textContent.startsWith("It is being")',
    60);
  await has(what, '#lesson-said', wanted);
}

async function begin(number) {
  await page.choose('#lesson', `exercise ${number}`);
  await has(`exercise ${number}`, '#lesson-title', `Exercise ${number} of ${NAMES.length}`);
}

const beginNamed = (name) => begin(NAMES.indexOf(name) + 1);

export async function testExercises() {
  await open();
  is('a program that stays', await valueOf('#example'), 'prefix.pardo');
  for (const [k, name] of NAMES.entries()) {
    await begin(k + 1);
    await judged(`its beginning is no solution: ${name}`, 'Not yet, ');
    await write(await begunWith(answersOf(name, 'right')[0]));
    await judged(`a solution of ${name}`, 'Right on all ');
    is('it is shown as right', await count('#lesson-said.right'), 1);
  }
  await picture('exercise');
  is('all stay marked', await count('#lesson [label] option[value^=exercise]'), NAMES.length);
  is('as solved', (await text('#lesson option[value="exercise 2"]')).startsWith('✓ 2: '), true);
  const file = await saved('#hand-in', 'exercises.txt');
  is('and are handed in as one file',
    NAMES.every((name) => file.includes(answersOf(name, 'right')[0])), true);
  await page.choose('#lesson', 'exercise 1');
  const [first] = answersOf(NAMES[0], 'right');
  is('what was begun goes on', (await valueOf('#text')).endsWith(first), true);
  await page.click('#lesson-anew');
  is('or begins anew', (await valueOf('#text')).endsWith(first), false);
}

export async function testWrongSolutions() {
  await open();
  for (const name of NAMES) {
    await beginNamed(name);
    await page.click('#lesson-anew');
    await write(await begunWith(answersOf(name, 'wrong')[0]));
    await judged(`wrong in ${name}`, 'Not yet, ');
    await write(await begunWith(answersOf(name, 'slow')[0]));
    await judged(`slow in ${name}`, 'all is right, but ');
  }
  await beginNamed('seven');
  await write(answerOf('seven', 'wrong-endless'));
  await judged('an endless one', 'still here after 1,048,576 steps');
  await page.click('#lesson-try');
  await has('the input that is wrong', '#fault', 'still here after 1,048,576 steps');
  await has('has its name', '#example option:checked', 'Exercise 6, this input');
  await beginNamed('neighbours');
  await write(await begunWith(answerOf('neighbours', 'wrong-power')));
  await judged('where n is no power of two', '(n = 5): B[');
  await page.click('#lesson-try');
  await has('the input that is wrong', '#answer', '5 processors');
  await begin(2);
  await write('pram 1\n');
  await judged('no program', 'Not yet: the line “pardo 1” is missing.');
}

// The task, the bars and the inputs that are shown, with what is wanted.
export async function testExercisePanel() {
  await open('#exercise=maximum');
  await has('the task', '#lesson-text', 'greatest becomes the greatest of all A[i]. n is a power ' +
    'of two. A may change. Under EREW. Time at most 4 * lg(n) + 4. Operations at most 4 * n + 8.');
  await has('how it is judged', '#lesson-text', 'Judge tries your lines on ');
  await has('an input', '#lesson-inputs', '5, 3, 9, 1');
  await has('what is wanted', '#lesson-inputs', 'greatest wanted');
  is('by the reference', await page.evaluate(`[...document.querySelectorAll('#lesson-inputs tr')]
    .map((row) => [...row.children].map((cell) => cell.textContent).join('|')).join(' ')`),
    'input|n|A|greatest wanted 1|4|5, 3, 9, 1|9 2|2|7, 9|9');
  is('hidden ones are not there', (await text('#lesson-inputs')).includes('1024'), false);
  await page.choose('#lesson', 'tour 1');
  is('the tour has none', await isShown('#lesson-inputs'), false);
}

// An exercise that someone sent is judged as it stands, beside one's own.
export async function testSentExercises() {
  await open();
  await page.evaluate('localStorage.clear()');
  await open();
  await begin(1);
  const [start, sent] = [await valueOf('#text'), await begunWith(answersOf(NAMES[0], 'right')[0])];
  const mine = start.replace(/code\n[^]*/, 'code\nA[i] := 7\n');
  await write(mine);
  const shown = { text: sent, view: 'workers', step: 0, schedule: new Schedule(2) };
  await open(`#${await writeAddress(shown, [])}`);
  await begin(1);
  is('it stays', await valueOf('#text'), sent);
  await judged('and is judged', 'Right on all ');
  await page.click('#lesson-anew');
  is('until it is begun anew', await valueOf('#text'), start);
  await begin(2);
  await begin(1);
  is('one’s own is there', await valueOf('#text'), mine);
  await page.evaluate('localStorage.clear()');
}

// What an older page kept as solved, by the number.
export async function testOldMarks() {
  await open();
  await page.evaluate(`localStorage.setItem('kaolinsilk solved',
    JSON.stringify({ 'exercise 7': 'total', 'puzzle 1': 'sum' }))`);
  await open();
  is('an exercise', (await text('#lesson option[value="exercise 7"]')), '✓ 7: sum');
  is('a puzzle', (await text('#lesson option[value="puzzle 1"]')).startsWith('✓ 1: '), true);
  is('by its name', await page.evaluate("localStorage.getItem('kaolinsilk solved')"),
    JSON.stringify({ 'exercise sum': 'total', 'puzzle 1': 'sum' }));
  await page.evaluate('localStorage.clear()');
}

// ---- an exercise of one's own

const OWN = exerciseText('sum').replace('title sum', 'title our sum').replace('hidden n=1024 ', '; ');
const OWN_TITLE = 'Your own exercise: our sum';

// A file of this name with this text, as a list of files.
const fileOf = (name, content) => `(() => {
  const files = new DataTransfer();
  files.items.add(new File([${JSON.stringify(content)}], '${name}'));
  return files;
})()`;

const chooseFile = (name, content) => page.evaluate(`(() => {
  const choice = document.getElementById('file');
  choice.files = ${fileOf(name, content)}.files;
  choice.dispatchEvent(new Event('change'));
})()`);

const dropFile = (name, content) => page.evaluate(`document.getElementById('text').dispatchEvent(
  new DragEvent('drop', { dataTransfer: ${fileOf(name, content)}, bubbles: true,
    cancelable: true }))`);

export async function testOwnExercise() {
  await open();
  await page.evaluate('localStorage.clear()');
  await open();
  await chooseFile('ours.exercise', OWN);
  await has('a file', '#file-said', 'ours.exercise is open.');
  is('has its title', await text('#lesson-title'), OWN_TITLE);
  await has('its task', '#lesson-text', 'total becomes the sum of all A[i]');
  await has('its inputs', '#lesson-inputs', 'total wanted');
  const start = await valueOf('#text');
  is('its start', /^; Exercise [0-9a-f]{8}: our sum\npardo 1\nrule crew\nconst n = 16\n/.test(start),
    true);
  is('it is in the menu', await text('#lesson option:checked'), 'your own: our sum');
  await judged('as it begins', 'Not yet, on input 1 of 11 (n = 4): total holds 5, wanted 18; line ');
  await picture('own-exercise');
  await page.click('#lesson-try');
  await has('the input', '#answer', '4 processors');
  await has('has its name', '#example option:checked', 'Exercise: our sum, this input');
  await page.choose('#lesson', 'exercise 21');
  const mine = `${start.split('\n', 1)[0]}\n${answersOf('sum', 'right')[0]}`;
  await write(mine);
  await judged('solved', 'Right on all 11 inputs, under EREW.');
  is('is marked', await text('#lesson option[value="exercise 21"]'), '✓ your own: our sum');
  is('and is handed in', (await saved('#hand-in', 'exercises.txt')).includes(mine), true);
  await page.until('location.hash.includes("own=")', 5);
  await page.until('false', 0.6);
  const hash = await page.evaluate('location.hash');
  await page.refresh();
  await page.until('document.documentElement?.hasAttribute("data-ready")');
  await has('loaded anew', '#lesson-title', OWN_TITLE);
  is('with its text', await valueOf('#text'), mine);
  await open();
  is('elsewhere it is not', await isShown('#lesson-title'), false);
  await open(hash);
  await has('a link has it', '#lesson-title', OWN_TITLE);
  is('with the text', await valueOf('#text'), mine);
  is('and the mark', await text('#lesson option[value="exercise 21"]'), '✓ your own: our sum');
  await judged('and it is judged', 'Right on all 11 inputs');
  await page.evaluate('localStorage.clear()');
}

export async function testDroppedExercise() {
  await open();
  await dropFile('ours.exercise', OWN);
  await has('a dropped file', '#lesson-title', OWN_TITLE);
  await dropFile('same.exercise', exerciseText('sort'));
  await has('one of the page', '#lesson-title', 'Exercise 16 of 20: sort');
  await dropFile('bad.exercise', OWN.replace('want total', 'want'));
  await has('a bad one', '#file-said', 'bad.exercise cannot be opened: the text is no exercise: ' +
    'line 7: something is wrong behind the first word.');
  await has('changes nothing', '#lesson-title', 'Exercise 16 of 20: sort');
  await dropFile('unfit.exercise', OWN.replace('n=4 A=5,3,9,1', 'n=0'));
  await has('another one', '#lesson-title', OWN_TITLE);
  await judged('one that cannot be judged by', 'This exercise cannot be judged by: the input in ' +
    'its line 29 sets a bad header: ');
  await open('#own=abc');
  await has('a bad link', '#link-said', 'The address can');
  await page.evaluate('localStorage.clear()');
}

const OLD = `; Exercise 2: double\n${LEAVING}`;

// What was kept of an exercise that was written for the machine is a program of one's own.
export async function testOldExercises() {
  await open();
  await page.evaluate(`localStorage.setItem('kaolinsilk drafts',
    ${JSON.stringify(JSON.stringify([{ number: 5, text: OLD }]))})`);
  await open();
  await begin(2);
  await has('the exercise begins', '#answer', '16 processors');
  is('in pardo', (await valueOf('#text')).startsWith('; Exercise 2: double\npardo 1\n'), true);
  await page.choose('#example', 'own 5');
  is('the old text is there', await valueOf('#text'), OLD);
  await has('and runs', '#answer', 'done after 3 steps');
  await judged('as no exercise', 'Not yet: the line “pardo 1” is missing.');
  await page.click('#lesson-anew');
  await judged('it begins anew', 'B[0] holds 3, wanted 6; line 11 wrote it last.');
  await page.evaluate('localStorage.clear()');
}

// A program of one's own stays beside exercises that are looked at.
export async function testExercisesKeepDrafts() {
  await open();
  await page.evaluate('localStorage.clear()');
  await open();
  await write(`; mine too\n${LEAVING}`);
  const programs = '#example optgroup:first-child option:not([value=rename], [value=delete])';
  const own = await count(programs);
  for (const k of NAMES.keys()) await page.choose('#lesson', `exercise ${k + 1}`);
  is('looking keeps nothing', await count(programs), own + 1);
  await has('an exercise has its name', '#example option:checked', 'Exercise 20');
  is('one’s own is there', await page.evaluate(`[...document.querySelectorAll('#example option')]
    .some((one) => one.textContent === 'your own: mine too')`), true);
}

const START = '#example=sum.pardo&view=workers&workers=3';

async function hasActs(acts) {
  await page.evaluate(`location.hash = ${JSON.stringify(`${START}&acts=${acts}`)}`);
  await page.until(`!document.getElementById('moment-said').textContent.startsWith('0')`);
}

export async function testPuzzles() {
  await open();
  for (const [k, acts] of SCHEDULES.entries()) {
    await page.choose('#lesson', `puzzle ${k + 1}`);
    await page.until('document.getElementById("moment-said").textContent === "0 of 0"');
    await judged(`nothing solves puzzle ${k + 1}`, 'Not yet: no such thing happened.');
    await hasActs(NO_SCHEDULES[k]);
    await judged(`almost a solution of puzzle ${k + 1}`, 'Not yet: no such thing happened.');
    await page.choose('#lesson', `puzzle ${k + 1}`);
    await hasActs(acts);
    await judged(`a solution of puzzle ${k + 1}`, 'Solved, in ');
  }
}

// The first puzzle by clicks alone.
export async function testPuzzleByClicks() {
  await open();
  await page.choose('#lesson', 'puzzle 1');
  await page.until('document.getElementById("moment-said").textContent === "0 of 0"');
  await page.click('#all-1');
  for (const card of [2, 3]) await page.click(`#cards li:nth-child(${card}) [data-action=lose]`);
  await page.click('#to-end');
  await has('it ends', '#outcome', 'Done: the same answer');
  await judged('and is solved', 'Solved, in ');
}

const STOPS = [
  ['#plain-said', 'for round = 1 to lg(n)'], ['#plain-said', 'A[i] := A[2 * i] + A[2 * i + 1]'],
  ['#moment-said', '0 of 0'], ['#moment-said', '180 of 180'],
  ['#cards li:nth-child(3) h4', 'worker 2, lost'], ['#outcome', 'Finished: 1 of '],
  ['#steps li', 'worker 2 wakes, as if no time had passed'],
  ['#steps li', 'worker 2 comes back, knowing nothing'],
  ['#cards li:nth-child(2) h4', 'worker 1, lost'],
];

export async function testTour() {
  await page.resize(1024, 768);
  await open();
  await page.choose('#lesson', 'tour 1');
  for (const [k, [selector, wanted]] of STOPS.entries()) {
    if (k > 0) await page.click('#lesson-on');
    await has(`stop ${k + 1}`, '#lesson-title', `Tour ${k + 1} of 9`);
    await has(`what stop ${k + 1} shows`, selector, wanted);
    const bottom = await page.evaluate(`scrollY + Math.max(...['#cards', '#lockstep .picture']
      .map((one) => document.querySelector(one).getBoundingClientRect().bottom))`);
    is(`stop ${k + 1} within 1024 x 768`, bottom <= 768 || bottom, true);
    if (k === 4) await page.sightPicture('tour');
  }
  is('the focus stays where nothing comes next', await focused(), 'lesson-on');
  await page.click('#to-end');
  await has('the end', '#outcome', 'Done: the same answer');
  await page.click('#lesson-back');
  await has('one stop back', '#lesson-title', 'Tour 8 of 9');
  await page.click('#lesson-close');
  is('closed', await isShown('#lesson-panel'), false);
  is('with the focus in its menu', await focused(), 'lesson');
  await page.resize(1280, 900);
}

// The title is that of what is shown, when one goes back, and elsewhere.
export async function testTourGoesBack() {
  await open();
  await page.click('h1');
  await page.choose('#lesson', 'tour 1');
  for (let k = 0; k < 4; k += 1) {
    await page.click('#lesson-on');
    await page.until(`history.state && document.getElementById('lesson-title').textContent
      .startsWith('Tour ${k + 2} ')`, 5);
    await page.until('false', 0.6);
  }
  await has('a worker is lost', '#cards li:nth-child(3) h4', 'lost');
  await page.evaluate('history.back()');
  await has('back in the history', '#lesson-title', 'Tour 4 of 9: the tree');
  await has('with its state', '#cards li:nth-child(3) h4', 'awake');
  await page.evaluate('history.forward()');
  await has('and forward', '#lesson-title', 'Tour 5 of 9: a worker is lost');
  await has('with its state', '#cards li:nth-child(3) h4', 'lost');
  await page.choose('#example', 'sort');
  is('elsewhere the tour is out of sight', await isShown('#lesson-panel'), false);
  await page.click('#undo-text');
  await has('back again', '#lesson-title', 'Tour 5 of 9: a worker is lost');
  is('in sight', await isShown('#lesson-panel'), true);
  await page.click('#lesson-close');
  await page.click('#undo-text');
  is('once closed it stays so', await isShown('#lesson-panel'), false);
}

// What the stop on sleep says: worker 2 finds all done, and changes nothing at its leaf.
export async function testTourTellsTheTruth() {
  await open();
  await page.choose('#lesson', 'tour 1');
  for (let k = 1; k < 5; k += 1) await page.click('#lesson-on');
  await has('written', '#steps li:nth-child(2)',
    'worker 2 swaps the older word of r3 of processor 3');
  for (let k = 0; k < 10; k += 1) await page.click('#all-1');
  await has('the others are there', '#steps', 'walks to the leaf of processor 3');
  for (let k = 0; k < 2; k += 1) await page.click('#lesson-on');
  await page.until('document.getElementById("steps").textContent.includes("wakes")');
  for (let k = 0; k < 6; k += 1) await page.click('#cards li:nth-child(3) [data-action=step]');
  await has('raised already', '#steps li', 'finds the leaf of processor 3 raised already');
  is('nothing changed', await page.evaluate(`[...document.querySelectorAll('#steps li')].slice(0, 6)
    .every((one) => !one.classList.contains('changes'))`), true);
}
