// Rows on exercises, in Node: how the core reads and judges them, and what is said of that.
import { readFileSync } from 'node:fs';
import {
  BAR, CODE, EXERCISE_FAULT, JOB_FAULT, KEY, MODEL, PROGRAM_FAULT, SHARING, UNFIT, WRONG,
} from '../src/declared.js';
import { isOf, isOfPage, readExercise, startOf, taskInWords } from '../src/exercises.js';
import { learnWanted } from '../src/exercise_inputs.js';
import { judgeExercise } from '../src/judge.js';
import { Source } from '../src/source.js';
import { trialCalls } from '../src/trials.js';
import { NAMES, answerOf, answersOf, exerciseText } from './solutions.js';

// Calls the core as the page's thread for exercises does.
export function askerOf(core) {
  const calls = { ...core, ...trialCalls(core) };
  return async (name, wanted) => calls[name](...wanted);
}

const exerciseOf = (core, name) =>
  readExercise(core, exerciseText(name), { name, number: NAMES.indexOf(name) + 1 });

// The names of the page's first ten, by which links call them.
const FIRST = ['own_numbers', 'double', 'reverse', 'neighbours', 'broadcast', 'seven', 'sum',
  'maximum', 'prefix', 'ranking'];

function testPacked(packed, is) {
  is('exercises in the page', packed.map(({ name }) => name).join(), NAMES.join());
  is('as they stand', packed.every(({ name, text }) => text === exerciseText(name)), true);
  is('links go on', NAMES.slice(0, FIRST.length).join(), FIRST.join());
}

// ---- the rows of the crates' own tests

const tests = (name) =>
  readFileSync(new URL(`../../crates/exercise_tests/src/${name}.rt`, import.meta.url), 'utf8');

// A constant that is a text.
const constantIn = (source, name) =>
  new RegExp(`const ${name}: &str =\\s*"([^"]*)"`).exec(source)[1].replaceAll('\\\n', '');

const rowsOf = (source, name = 'ROWS') => constantIn(source, name).split('\n')
  .map((row) => row.split(' => ').map((part) => part.replaceAll('~', '\n')));

// NOT_ASCII becomes NotAscii, as the sources have it.
const wordOf = (numbers, number) => Object.keys(numbers).find((name) => numbers[name] === number)
  .toLowerCase().replaceAll(/(?:^|_)(\w)/g, (_, letter) => letter.toUpperCase());

function testReading(core, is) {
  for (const [text, wanted] of rowsOf(tests('texts'))) {
    const { code, list, line, fault, lacks } = core.entries(text);
    const given = list.find(({ key }) => key === KEY.GIVEN)?.bytes;
    const kind = fault && wordOf(EXERCISE_FAULT, fault);
    const missing = fault === EXERCISE_FAULT.MISSING ? `(${wordOf(KEY, lacks)})` : '';
    is(`entries of ${JSON.stringify(text)}`, code === CODE.DONE
      ? `${list.length} entries, ${given} bytes given` : `${line} ${kind}${missing}`, wanted);
  }
}

function refusalOf({ fault, line }) {
  const isJob = Object.values(JOB_FAULT).includes(fault);
  const [kind, struct, faults] = isJob ? ['Job', 'JobFault', JOB_FAULT]
    : ['Text', 'PardoFault', PROGRAM_FAULT];
  return `${kind}(${struct} { line: ${line}, kind: ${wordOf(faults, fault)} })`;
}

function wrongOf(told) {
  const { kind, text, line, first, second, held, wanted } = told;
  switch (kind) {
    case WRONG.MISSING: return `missing ${text}`;
    case WRONG.PROGRAM: return refusalOf(told);
    case WRONG.CONFLICT: return `conflict line=${line} place=${text} processors=${first},${second}`;
    case WRONG.VALUE: return `${text} holds ${held}, wanted ${wanted}`;
    case WRONG.BAR: return `${wordOf(BAR, told.bar)} ${told.took} of ${told.most}`;
    case WRONG.GONE: return `processor ${first} gone line=${line}`;
    case WRONG.PLACES: return `${text} length ${told.took}, wanted ${told.most}`;
    default: return `${wordOf(MODEL, told.needs)} for ${wordOf(MODEL, told.allowed)} ${
      wordOf(SHARING, told.sharing)} line=${line} place=${text} processors=${first},${second}`;
  }
}

function saidOf(told) {
  if (told.code === CODE.UNFIT && told.kind === UNFIT.UNKNOWN) {
    return `unfit ${told.line} unknown ${told.text}`;
  }
  if (told.code === CODE.UNFIT) return `unfit ${told.line} ${wordOf(UNFIT, told.kind)}`;
  return told.code === CODE.PASSED ? 'passed' : `${told.input} ${wrongOf(told)}`;
}

function testVerdicts(core, is) {
  const source = tests('submissions');
  const [sums, good] = [constantIn(source, 'SUMS'), constantIn(source, 'GOOD')];
  for (const [from, to, wanted] of rowsOf(source)) {
    const told = core.verdict(sums, good.replaceAll('~', '\n').replaceAll(from, to));
    is(`a verdict on ${JSON.stringify(to)}`, saidOf(told), wanted);
  }
  for (const [from, to, wanted] of rowsOf(source, 'CHANGES')) {
    const exercise = sums.replaceAll(from, to);
    const { code, line, fault } = core.entries(exercise);
    const said = code === CODE.DONE ? saidOf(core.verdict(exercise, good.replaceAll('~', '\n')))
      : `${line} ${wordOf(EXERCISE_FAULT, fault)}`;
    is(`a verdict by ${JSON.stringify(to)}`, said, wanted);
  }
  return sums;
}

// ---- the exercises and their answers

// What is told of a value is what the text with that input holds there.
async function isHeld(core, ask, exercise, text, told) {
  const { line } = exercise.inputs[told.input - 1];
  const trial = await ask('trial', [core.given(exercise.text, text, line).text]);
  const source = new Source([], trial.made);
  const { cells } = trial.answer;
  const cell = cells.findIndex((_, k) => k < source.shared && source.nameOfCell(k) === told.text);
  return cells[cell] === told.held && told.held !== told.wanted;
}

const SLOW = /^Not yet, on input \d+ of \d+(?: \(.*\)|, which is not shown): all is right, but /;

async function testAnswers(core, is) {
  const ask = askerOf(core);
  for (const name of NAMES) {
    const exercise = exerciseOf(core, name);
    const judged = async (text) => (await judgeExercise(ask, exercise, text)).said;
    const [right] = answersOf(name, 'right');
    const [slow] = answersOf(name, 'slow');
    const [wrong] = answersOf(name, 'wrong');
    const start = performance.now();
    const said = await judged(right);
    console.log(`  ${name}: judged in ${(performance.now() - start).toFixed(0)} ms`);
    is(`${name}: solved`, said.startsWith(`Right on all ${exercise.inputs.length} inputs, under `)
      || said, true);
    const slowly = await judged(slow);
    is(`${name}: slowly`, SLOW.test(slowly) || slowly, true);
    const begun = await judgeExercise(ask, exercise, startOf(exercise));
    is(`${name}: as it begins`, begun.isRight, false);
    is(`${name}: what was begun`, isOf(exercise, startOf(exercise)), true);
    const told = core.verdict(exercise.text, wrong);
    is(`${name}: wrong`, told.code, CODE.FAILED);
    if (told.kind === WRONG.VALUE && told.hidden === 0) {
      is(`${name}: holds it`, await isHeld(core, ask, exercise, wrong, told), true);
    }
  }
}

// ---- what is said

// Wrong answers, and what is said of them.
const WRONG_ANSWERS = [
  ['reverse', 'wrong-off_by_one', 'Not yet, on input 1 of 7 (n = 5): B[0] holds '],
  ['neighbours', 'wrong-power', 'Not yet, on input 1 of 7 (n = 5): B[0] holds 6, wanted 4; line 8 '
    + 'wrote it last.'],
  ['broadcast', 'wrong-all_read', 'Not yet, on input 1 of 11 (n = 5): it needs CREW: processors ' +
    '0 and 1 read A[0] in line '],
  ['seven', 'wrong-endless', 'Not yet, on input 2 of 32 (n = 5): line 8: the program is still '
    + 'here after 1,048,576 steps'],
  ['seven', 'wrong-conflict', 'Not yet, on input '],
  ['sum', 'wrong-race', 'Not yet, on input 1 of 12 (n = 4): processors 0 and 1 write total in ' +
    'line 8, against the rule crew.'],
];

async function testWrong(core, is) {
  const ask = askerOf(core);
  for (const [name, file, words] of WRONG_ANSWERS) {
    const { said } = await judgeExercise(ask, exerciseOf(core, name), answerOf(name, file));
    is(`${name}: ${file}`, said.startsWith(words) || said, true);
  }
}

// The lines before `code` are the exercise's own, whatever stands there; which are missing is told.
async function testHeaders(core, is) {
  const exercise = exerciseOf(core, 'own_numbers');
  const right = answerOf('own_numbers', 'right-plain');
  const judged = async (text) => (await judgeExercise(askerOf(core), exercise, text)).said;
  const isRight = 'Right on all 6 inputs, under EREW.';
  for (const [from, to, words] of [
    ['n = 16', 'n = 4', isRight], ['rule crew', 'rule priority', isRight],
    [/ = 3, 1.*/, '', isRight], ['< n', '< 3', isRight], ['shared', '  shared ', isRight],
    ['procs i', 'procs j', 'Not yet: the line “procs i < n” is missing. “Begin anew” brings it'],
    [/shared.*\n/, '', 'Not yet: the line “shared A[n]” is missing.'],
    ['\ncode', '\n; code', 'Not yet, line '],
    [/^[^]*$/, 'pram 3\ncells 1\n', 'Not yet: the line “pardo 1” is missing.'],
    ['A[i] := i', 'A[i] = i', 'Not yet, line 7: something is missing here, left over, or in the ' +
      'wrong place. “:=” as'],
    ['A[i] := i', 'A[i + 1] := i', 'Not yet, on input 1 of 6 (n = 5): A[0] holds 3, wanted 0; no ' +
      'line wrote it. Processor 4 is gone since line 7, where its array has no such place.'],
    ['A[i] := i', 'A[i] := 7', 'Not yet, on input 1 of 6 (n = 5): A[0] holds 7, wanted 0; line 7 ' +
      'wrote it last.'],
  ]) {
    const said = await judged(right.replace(from, to));
    is(`a header with ${JSON.stringify(to)}`, said.startsWith(words) || said, true);
  }
  const begun = startOf(exercise);
  is('as it begins', begun.split('\n').slice(0, 3).join('|'),
    '; Exercise 1: own numbers|pardo 1|rule crew');
  is('an old text of the machine', isOf(exercise, begun.replace('pardo 1', 'pram 3')), false);
  const wrong = right.replace('A[i] := i', 'A[i] := 7');
  const { given } = await judgeExercise(askerOf(core), exercise, wrong);
  is('the text with the input', given,
    wrong.replace('n = 16', 'n = 5').replace(/(A\[n\] =) .*/, '$1 3,1,4,1,5'));
}

// ---- an exercise of one's own

// What stands in the place of what in an exercise, and how that is told.
const UNFITS = [
  ['n=4 A=5,3,9,1', 'n=0', 'its line 26 sets a bad header: line '],
  ['-> A=7,16', '-> A=1,2,3', 'its line 27 says badly what is wanted: line 5: '],
  ['6 * lg(n) + 4', '6 * m', 'a bar has no value with the input in its line 26: line '],
  ['A[k] + A[k - 1]', 'A[k] +', 'its reference fails with the input in its line 26: line '],
  ['want A', 'want B', 'nothing is named “B”, with the input in its line 26'],
  ['n=4 A=5', 'n=4 a=5', 'nothing is named “a”, with the input in its line 26'],
  ['if i = 0', 'if i >= 0', 'its reference ends in a conflict with the input in its line 26'],
];

async function testOwn(core, is, sums) {
  const ask = askerOf(core);
  const own = readExercise(core, sums);
  is('one’s own', isOfPage(own), false);
  is('goes by its text', own.name, readExercise(core, `${sums}`).name);
  is('another text is another one', own.name === readExercise(core, `${sums}; more\n`).name, false);
  is('its task', taskInWords(own), 'A[i] becomes A[0] + .. + A[i], modulo 2^32. Under EREW. Time ' +
    'at most 6 * lg(n) + 4. Operations at most 9 * n * lg(n). Steps of the machine at most 60 * ' +
    'lg(n) + 100. Lines of code at most 8. Judge tries your lines on 4 inputs, of which 2 are ' +
    'not shown.');
  await learnWanted(ask, core, own);
  is('what is wanted', own.inputs.map(({ wanted }) => wanted.join(' ')).join(' | '),
    'A,5,8,17,18 | A,7,16 |  | ');
  for (const [from, to, words] of UNFITS) {
    const exercise = readExercise(core, sums.replace(from, to));
    const { said } = await judgeExercise(ask, exercise, startOf(exercise));
    is(`unfit by ${to}`, (said.startsWith('This exercise cannot be judged by: ') &&
      said.includes(words)) || said, true);
  }
  let why = '';
  try {
    readExercise(core, sums.replace('title', 'titel'));
  } catch (error) {
    why = error.message;
  }
  is('no exercise', why,
    'the text is no exercise: line 2: no line of an exercise begins with this word');
}

export async function testExercises(core, packed, is) {
  testPacked(packed, is);
  testReading(core, is);
  const sums = testVerdicts(core, is);
  await testAnswers(core, is);
  await testWrong(core, is);
  await testHeaders(core, is);
  await testOwn(core, is, sums);
}
