// core_test.js PAGE EXAMPLES [PRAMX]: the core that stands in the page, in Node. The gallery
// against its answers, and against the program `pramx` where a path is given; walks of all three
// rules.
import { execFileSync, spawnSync } from 'node:child_process';
import { readFileSync, readdirSync, writeFileSync } from 'node:fs';
import { tmpdir } from 'node:os';
import { join } from 'node:path';
import { statesAt } from '../src/activity.js';
import { atWorkInWords } from '../src/at_work.js';
import {
  CODE, END, JOB_FAULT, LIMIT, MODELS, OP, PROGRAM_FAULT, TEXT_FAULT,
} from '../src/declared.js';
import { blockAround, piecesOfLine } from '../src/colours.js';
import { effectOf } from '../src/effects.js';
import { countEvents, firstEvents, putEvent, roomForEvents } from '../src/event_words.js';
import { wordsOfFault } from '../src/faults.js';
import { fixesOf } from '../src/fixes.js';
import { DOING, STATUS, TARGET } from '../src/kinds.js';
import { LineCounts } from '../src/line_counts.js';
import { lineInWords } from '../src/lockstep_words.js';
import { LinePace } from '../src/paces.js';
import { planOf } from '../src/plan.js';
import { counterPlace, registerPlace, statusOf } from '../src/places.js';
import { wordsOfProgramFault } from '../src/program_faults.js';
import { ACT, actOf, readActs, writeActs } from '../src/acts.js';
import { readAddress, readShown, writeAddress, writeShown } from '../src/address.js';
import { Schedule } from '../src/schedule.js';
import { Source } from '../src/source.js';
import { numberOfStanding, standingOf } from '../src/standing.js';
import { trialCalls } from '../src/trials.js';
import { testExercises } from './exercise_rows.js';
import { coreOf, exercisesOf } from './page_parts.js';
import { report } from './report.js';

const MOST = 4294967295;
const [pagePath, folder, pramx] = process.argv.slice(2);
const { is, end } = report();

const page = readFileSync(pagePath, 'utf8');

function printed(answer) {
  if (answer.code === CODE.DONE) {
    const cells = [...answer.cells].map((value, cell) => `${cell}: ${value}\n`).join('');
    return `done steps=${answer.step}\n${cells}`;
  }
  if (answer.code === CODE.CONFLICT) {
    return `conflict step=${answer.step} cell=${answer.cell} ` +
      `processors=${answer.first},${answer.second}\n`;
  }
  return `code=${answer.code}\n`;
}

// What `pramx cost` prints of it. `whereOf` tells a cell; `end` is the answer's first line.
function printedCost({ meetings, ...cost }, end, whereOf = ({ cell }) => `cell=${cell}`) {
  const { steps, procs, executed, most, reading, writing, needs } = cost;
  const [read, write, other] = meetings.map((meeting) => {
    const { step, first, second } = meeting;
    return step === 0 ? 'none'
      : `step=${step} ${whereOf(meeting)} processors=${first},${second}`;
  });
  const rows = ['cost of this input', `steps ${steps}`, `processors ${procs}`,
    `product ${steps * procs}`, `work ${executed}`, `most ${most}`, `reading ${reading}`,
    `writing ${writing}`, `needs ${MODELS[needs]}`, `same read ${read}`, `same write ${write}`,
    `other value ${other}`, end];
  return `${rows.join('\n')}\n`;
}

const firstLineOf = (text) => text.split('\n', 1)[0];

// What `pramx plain` prints: with a conflict its status is 1.
function plainOf(path) {
  try {
    return execFileSync(pramx, ['plain', path], { encoding: 'utf8' });
  } catch (failure) {
    return failure.stdout;
  }
}

// The answer of a program by its names and lines, as the program prints it.
function printedByNames(core, source, job, answer) {
  if (answer.code === CODE.CONFLICT) {
    const { requests: { list } } = core.moment(source.text, job, answer.step - 1, MOST);
    return `conflict line=${source.lineOf[list[answer.first].counter]} ` +
      `place=${source.nameOfCell(answer.cell)} processors=${answer.first},${answer.second}\n`;
  }
  const row = (name, from, len) => `${name} = ${answer.cells.slice(from, from + len).join(' ')}\n`;
  const arrays = source.arrays.map(({ name, base, len, width }) => (width
    ? Array.from({ length: len / width }, (_, r) => row(`${name}[${r}]`, base + r * width, width))
      .join('')
    : row(name, base, len)));
  const last = core.last(source.text, job, answer.step, MOST).list;
  const { places } = core.moment(source.text, job, answer.step, MOST).state;
  const gone = last.flatMap(({ index }, processor) => (
    statusOf(job, places[counterPlace(job, processor)]) === STATUS.OUT_OF_RANGE
      ? [`gone processor=${processor} line=${source.lineOf[index]}\n`] : []));
  return `done steps=${answer.step}\n${arrays.join('')}${gone.join('')}`;
}

// The state after each step is the one before it with the writes of the requests.
function stepsAgree(core, text, job, answer) {
  const last = answer.code === CODE.CONFLICT ? answer.step - 1 : answer.step;
  for (let step = 0; step < last; step += 1) {
    const { state: { places }, requests: { list } } = core.moment(text, job, step, MOST);
    const next = core.moment(text, job, step + 1, MOST).state.places;
    for (const [processor, request] of [...list.entries()].reverse()) {
      const { target, number, value } = request;
      if (target === TARGET.CELL) places[number] = value;
      if (target === TARGET.REGISTER) places[registerPlace(job, processor, number)] = value;
      places[counterPlace(job, processor)] = request.next;
    }
    if (places.some((value, place) => value !== next[place])) return `step ${step + 1}`;
  }
  return 'agree';
}

// A walk whose workers take turns, but for these: one loses everything at some moment and comes
// back later, one sleeps for a time, and a twin of another joins.
function walkActs(workers, rounds) {
  const acts = [];
  for (let round = 0; round < rounds; round += 1) {
    if (round === 20) acts.push(actOf(ACT.LOSE, 1));
    if (round === 90) acts.push(actOf(ACT.BACK, 1));
    if (round === 40) acts.push(actOf(ACT.TWIN, 0));
    for (let body = 0; body < workers + (round >= 40 ? 1 : 0); body += 1) {
      const isAsleep = body === 2 && round > 30 && round < 200;
      if (!isAsleep) acts.push(actOf(ACT.GO, body));
    }
  }
  return acts;
}

const eventsOf = (workers, acts) => new Schedule(workers, acts).events.upTo(acts.length);

const isOver = ({ doing }) => doing === DOING.DONE || doing === DOING.CONFLICT;

function walk(core, text, { places }) {
  for (let rounds = 256; rounds < 2000000; rounds *= 2) {
    const events = eventsOf(3, walkActs(3, rounds));
    const scene = core.scene(text, 3, events, { from: countEvents(events), places });
    if (scene.code !== CODE.DONE) return { code: scene.code };
    if (scene.bodies.every(isOver)) return { code: CODE.DONE, events, scene };
  }
  return { code: CODE.UNFINISHED };
}

// At some moments of the walk each cell is read as the machine had it.
function readsAgree(core, text, job, events) {
  const count = countEvents(events);
  for (let k = 0; k <= 20; k += 1) {
    const from = Math.floor((count * k) / 20);
    const part = firstEvents(events, from);
    const wanted = { from, places: job.places, cells: job.cells };
    const { pairs } = core.scene(text, 3, part, wanted);
    const states = new Map();
    for (let cell = 0; cell < job.cells; cell += 1) {
      const [step, value] = pairs.subarray(2 * cell);
      if (!states.has(step)) states.set(step, core.moment(text, job, step, MOST).state.places);
      if (states.get(step)[cell] !== value) return `cell ${cell} at ${k} of 20`;
    }
  }
  return 'agree';
}

function testProgram(core, name) {
  const path = join(folder, `${name}.pram`);
  const text = readFileSync(path, 'utf8');
  const wanted = readFileSync(join(folder, `${name}.out`), 'utf8');
  const job = core.judge(text);
  const answer = core.answer(text, job, MOST);
  is(`${name}: answer`, printed(answer), wanted);
  if (pramx) is(`${name}: pramx plain`, printed(answer), plainOf(path));
  is(`${name}: cost`, printedCost(core.cost(text), firstLineOf(wanted)),
    readFileSync(join(folder, `${name}.cost`), 'utf8'));
  is(`${name}: requests make the states`, stepsAgree(core, text, job, answer), 'agree');
  const walked = walk(core, text, job);
  is(`${name}: a walk ends`, walked.code, CODE.DONE);
  if (walked.code !== CODE.DONE) return;
  is(`${name}: its outcome`, printed(core.outcome(text, job, 3, walked.events)), wanted);
  is(`${name}: its reads`, readsAgree(core, text, job, walked.events), 'agree');
}

// At the beginning of a line all processors that run stand at it.
function linesAgree(core, source, job, answer) {
  const { list } = core.starts(source.text, answer.step, MOST, source.starts);
  for (let k = 0; k < list.length; k += 2) {
    const { requests } = core.moment(source.text, job, list[k], MOST);
    const running = requests.list.filter(({ status }) => status === STATUS.RUNS);
    if (running.some(({ counter }) => counter !== list[k + 1])) return `step ${list[k]}`;
  }
  return list.length > 0 ? 'agree' : 'none';
}

// The costs of a program, with the lines and the places where processors meet, as the page has
// them: of a line that some instruction of the step came from.
function costByNames(core, source, wanted) {
  const whereOf = ({ step, cell }) => {
    const [{ at }] = core.steps(source.text, step - 1, 1, MOST).list;
    return `line=${source.lineOf[at]} place=${source.nameOfCell(cell)}`;
  };
  return printedCost(core.cost(source.text), firstLineOf(wanted), whereOf);
}

// Costs of a program without its time, operations and rounds, which the page does not tell.
function costOfJob(costs) {
  return costs.slice(costs.indexOf('cost of this input'), costs.indexOf('rounds '));
}

// A program that a text of the machine was made of.
function sourceOf(core, text) {
  const [{ list }, made] = [core.lines(text), core.compile(text)];
  return new Source(list, made);
}

// How often each line is executed, as the page counts it, beside what the program tells of lines
// that are counted; a branch of an `if` has a mask of its own.
function countsAgree(core, source, job, answer, told) {
  const { list } = core.starts(source.text, answer.step, MOST, source.starts);
  const isConflict = answer.code === CODE.CONFLICT;
  const end = isConflict ? answer.step - 1 : answer.step;
  const pace = new LinePace(list, source.program, end, isConflict);
  const wanted = pace.lines.map((line, k) => ({ step: pace.stepAt(k), mask: source.maskOf(line) }));
  const counts = new LineCounts(pace.lines, trialCalls(core).active(source.text, job, wanted));
  const half = Math.floor(pace.last / 2);
  for (const number of [pace.last, half]) counts.moveTo(number);
  const rows = counts.byLine;
  const done = [...rows.values()].reduce((sum, { timesNow }) => sum + timesNow, 0);
  if (done !== half) return `${done} of ${half} lines done`;
  for (const [line, times, , active, most, words] of told) {
    const row = rows.get(Number(line));
    const counted = [row?.times, row?.active, row?.most].join();
    if (counted !== [times, active, most].join() && !/^\s*elsif\b/.test(words)) {
      return `line ${line}: ${counted}`;
    }
  }
  return 'agree';
}

// The lines that the program counts: line, times, time, operations, most, text.
function countedLines(path) {
  const { stdout } = spawnSync(pramx, ['cost', '--lines', path], { encoding: 'utf8' });
  return stdout.split('\n').filter((row) => /^\d/.test(row)).map((row) => row.split(','));
}

function testPardo(core, name) {
  const path = join(folder, `${name}.pardo`);
  const text = readFileSync(path, 'utf8');
  const wanted = readFileSync(join(folder, `${name}.pardo.out`), 'utf8');
  const source = sourceOf(core, text);
  const job = core.judge(source.text);
  const answer = core.answer(source.text, job, MOST);
  is(`${name}.pardo: answer`, printedByNames(core, source, job, answer), wanted);
  if (pramx) is(`${name}.pardo: pramx plain`, plainOf(path), wanted);
  is(`${name}.pardo: cost`, costByNames(core, source, wanted),
    costOfJob(readFileSync(join(folder, `${name}.pardo.cost`), 'utf8')));
  is(`${name}.pardo: lines`, linesAgree(core, source, job, answer), 'agree');
  if (pramx) {
    is(`${name}.pardo: how often they are executed`,
      countsAgree(core, source, job, answer, countedLines(path)), 'agree');
  }
  const walked = walk(core, source.text, job);
  is(`${name}.pardo: a walk ends`, walked.code, CODE.DONE);
  if (walked.code !== CODE.DONE) return;
  is(`${name}.pardo: its outcome`,
    printed(core.outcome(source.text, job, 3, walked.events)), printed(answer));
}

const DEEP = 'pardo 1\nrule common\nprocs i < 4\nshared x\nshared y[2]\nprivate z\ncode\n' +
  'if i < 2\n   for k = 0 to 1\n      z := k\n   end\nelsif i = 3\n   x := 1\nend\n';

// What the core tells of cells and lines.
function testNames(core) {
  const source = sourceOf(core, DEEP);
  const names = [0, 1, 2, 3, 6, 7, 11].map((cell) => source.nameOfCell(cell));
  is('names of cells', names.join(),
    'x,y[0],y[1],z of P0,z of P3,loop 1 of P0,mask 1 of P0');
  is('depths of lines', [...source.depths].join(' '), '8,0 9,1 10,1 11,1 12,0 13,2 14,0');
  is('a program of the machine', core.lines('pram 3\n').code, CODE.OTHER_LANGUAGE);
  is('it has no job of a program', core.compile('; pardo\npram 3\n').code, CODE.OTHER_LANGUAGE);
}

// Processor 0 is gone, nobody is active, and a loop goes on.
const LOOP_WITHOUT_FIRST = 'pardo 1\nrule crew\nprocs i < 4\nshared A[4]\ncode\nif i = 0\n' +
  '   A[i + 4] := 1\nend\nif i > 3\n   for h = 1 to 3\n      A[i] := h\n   end\nend\n';

// Each moment of a program by its lines, in words.
function momentsInWords(core, text) {
  const source = sourceOf(core, text);
  const sizes = core.judge(source.text);
  const { step } = core.answer(source.text, sizes, MOST);
  const { list } = core.starts(source.text, step, MOST, source.starts);
  const job = { ...sizes, source, program: source.program };
  const pace = new LinePace(list, job.program, step, false);
  const app = { job, runText: text, whole: { fates: () => undefined } };
  return pace.steps.map((at, number) => {
    const { places } = core.moment(source.text, sizes, at, MOST).state;
    const line = pace.lineAt(number);
    const states = statesAt(job, places, line);
    return lineInWords({ ...app, step: at }, { line, number, places, states, requests: [] });
  });
}

function testAtWork() {
  const text = 'code\nA[i] := 1  ; one\nB[i] := 2\n';
  const [first, second] = [[2, { badge: 'P0-3' }], [3, { badge: '' }]];
  is('no line at work', atWorkInWords(new Map(), text), '');
  is('one', atWorkInWords(new Map([second]), text), '3: B[i] := 2');
  is('the first of two', atWorkInWords(new Map([second, first]), text),
    '2: A[i] := 1 (P0-3), and other lines');
}

function testLoopsInWords(core) {
  const words = momentsInWords(core, LOOP_WITHOUT_FIRST);
  const inLoop = words.filter((said) => said.startsWith('Line 11: '));
  is('a loop’s variable where processor 0 is gone', inLoop.map((said) => /h = \d/.exec(said)).join(),
    'h = 1,h = 2,h = 3');
  is('and nobody is active', inLoop.every((said) => said.includes('No processor is active')), true);
}

const PARDO_HEAD = 'pardo 1\nrule crew\nprocs i < 4\nshared s\nshared A[4]\n';

// Texts that are no program: the kind, and the line.
const PARDO_REFUSED = [
  ['pardo 1\n\x01', PROGRAM_FAULT.NOT_ASCII, 2],
  ['pardo 1\n#', PROGRAM_FAULT.BAD_SYMBOL, 2],
  ['pardo 1', PROGRAM_FAULT.BAD_HEADER, 1],
  [`${PARDO_HEAD}code\ns = 1`, PROGRAM_FAULT.BAD_LINE, 7],
  [`${PARDO_HEAD}code\nt := 1`, PROGRAM_FAULT.UNKNOWN_NAME, 7],
  [`${PARDO_HEAD}shared s`, PROGRAM_FAULT.DUPLICATE_NAME, 6],
  [`${PARDO_HEAD}code\nA := 1`, PROGRAM_FAULT.WRONG_KIND, 7],
  ['pardo 1\nrule crew\nprocs i < 65537', PROGRAM_FAULT.OUT_OF_LIMITS, 3],
  [`${PARDO_HEAD}shared B[2] = 1`, PROGRAM_FAULT.WRONG_LENGTH, 6],
  [`${PARDO_HEAD}shared B[1048576]`, PROGRAM_FAULT.TOO_MANY_CELLS, 6],
  [`${PARDO_HEAD}code\nend`, PROGRAM_FAULT.BAD_BLOCK, 7],
  [`${PARDO_HEAD}code\ns := ${'('.repeat(33)}1${')'.repeat(33)}`, PROGRAM_FAULT.TOO_DEEP, 7],
  [`${PARDO_HEAD}code\nif i`, PROGRAM_FAULT.OPEN_BLOCK, 7],
  [`${PARDO_HEAD}code`, PROGRAM_FAULT.NO_CODE, 6],
  [`${PARDO_HEAD}shared B[1048570]\ncode\ns := s * (s * (s * s))`, JOB_FAULT.TOO_MANY_CELLS, 8],
  [`${PARDO_HEAD}code\n${'s := i\n'.repeat(4096)}`, JOB_FAULT.TOO_LONG, undefined],
  ['pardo 1\nrule crew\nprocs i < 1\nshared s\ncode\nwhile 1\ns := 1\nend', JOB_FAULT.ENDLESS,
    undefined],
];

// Hidden lines have rows of their own, after those of private variables and of loops.
function testHiddenRows(core) {
  const source = sourceOf(core, 'pardo 1\nrule crew\nprocs i < 2\nshared s\nprivate x\ncode\n' +
    'for k = 1 to 2\nif i\nx := x * (x + (x * (x + (x * (x + i)))))\nend\nend');
  const { cells } = core.judge(source.text);
  const last = source.rows.at(-1);
  is('hidden rows: the last one is a mask', [source.nameOf(last), last.base + last.len].join(),
    ['mask 1', cells].join());
  is('hidden rows: each has its name', source.rows.map((row) => source.nameOf(row)).join(),
    's,x,kept 1,kept 2,kept 3,loop 1,mask 1');
}

function testPardoRefusals(core) {
  for (const [text, fault, line] of PARDO_REFUSED) {
    const told = core.compile(text);
    const name = JSON.stringify(text.slice(-24));
    is(`${name}: kind`, [told.code, told.fault].join(), [CODE.NO_JOB, fault].join());
    if (line !== undefined) is(`${name}: line`, told.line, line);
    const said = wordsOfProgramFault(told.fault, text.split('\n')[told.line - 1] ?? '');
    is(`${name}: words`, !said.startsWith('this line is refused') || said, true);
    const isOfText = !Object.values(JOB_FAULT).includes(fault);
    is(`${name}: as a text`, core.lines(text).code, isOfText ? CODE.NO_JOB : CODE.DONE);
  }
}

function testPlan() {
  const acts = readActs(3, '0.1.2*5~l1~0.2*9~b1~1*3~l2~0.2.0');
  is('a plan', planOf(acts).split('\n').length > 20, true);
  is('its beginning', planOf(acts).startsWith('worker,act,ticks\n0,go,1\n1,go,1\n2,go,1\n'), true);
  is('its end', planOf(acts).endsWith('1,back,0\n1,go,3\n0,go,2\n2,stop,0\n'), true);
}

// A replay of the plan makes the same first atomic steps as the page's schedule.
function testReplay(core, name, scratch) {
  const acts = readActs(3, '0.1.2*50~l1~0.2*30~b1~1.0*70');
  const plan = join(scratch, 'playground-plan.csv');
  writeFileSync(plan, planOf(acts));
  const path = join(folder, `${name}.pram`);
  const out = execFileSync(pramx, ['replay', path, '--workers', '3', '--plan', plan],
    { encoding: 'utf8', maxBuffer: 2 ** 28 });
  const traced = out.split('\n').slice(1);
  const events = eventsOf(3, acts);
  const text = readFileSync(path, 'utf8');
  const { rows: count, effects } =
    core.scene(text, 3, events, { from: 0, places: core.judge(text).places });
  const rows = Array.from({ length: count }, (_, k) => effectOf(effects, k));
  const kinds = Object.fromEntries(
    Object.entries(OP).map(([kind, number]) => [number, kind.toLowerCase()]));
  const made = rows.filter((row) => row.kind !== OP.OVER).map((row, k) =>
    `${k + 1},${row.body},${kinds[row.kind]},${row.word},${row.before},${row.after}`);
  is(`${name}: a replay of the plan`, made.find((row, k) => row !== traced[k]) ?? 'alike', 'alike');
}

function testActs() {
  const texts = ['', '0', '0.1.2*100', '0.1.2*100~l1~0.2*7', 't0.3~3.0*50~s0~3*9~w0.b2'];
  for (const text of texts) {
    const acts = readActs(3, text);
    is(`acts ${text}`, JSON.stringify(readActs(3, writeActs(acts))), JSON.stringify(acts));
  }
  for (const text of ['x', '0*', '*3', '3', '0*9999999', '0.1*400000', 'l9', '-1', 't3', '0..1']) {
    let said = 'taken';
    try {
      readActs(3, text);
    } catch {
      said = 'refused';
    }
    is(`hostile acts ${text}`, said, 'refused');
  }
}

const told = ({ schedule: { workers, acts, at }, ...rest }) =>
  JSON.stringify([rest.text, rest.view, rest.step, workers, acts, at]);

const makeShown = (text) => {
  const schedule = new Schedule(2, readActs(2, '0.1*9'), 7);
  return { text, view: 'workers', step: 3, schedule };
};

async function testAddress() {
  const shown = makeShown('pram 1 ; ünïcode & <b>=#%\n');
  const read = await readAddress(await writeAddress(shown, []), []);
  is('an address', told(read), told(shown));
  const bomb = { ...shown, text: ' '.repeat(20000000) };
  is('a text too long for a link', await writeAddress(bomb, []), undefined);
  for (const address of ['text=%%%', 'text=AAAA', 'example=none', 'workers=9', 'workers=0',
    'workers=2&acts=x', 'workers=2&acts=0&at=5', 'step=99999999999']) {
    const said = await readAddress(address, []).then(() => 'taken', () => 'refused');
    is(`hostile address ${address}`, said, 'refused');
  }
}

// What is shown, as the page keeps it for itself.
async function testShown() {
  const shown = makeShown('pram 1 ; ünïcode & <b>=#%\n');
  is('what is shown', told(await readShown(writeShown(shown, []), [])), told(shown));
  const long = { ...shown, text: '; long\n'.repeat(300000) };
  is('a long one', told(await readShown(writeShown(long, []), [])) === told(long), true);
  const kept = writeShown(shown, [{ name: 'mine', text: shown.text }]);
  const later = await readShown(kept, [{ name: 'mine', text: 'later' }]);
  is('an example is kept by its name', later.text, 'later');
  for (const bad of [{}, kept, { address: 'view=workers' }, { address: 'step=-1', text: '' },
    { address: 'view=workers', text: 5 }]) {
    const said = await readShown(bad, []).then(() => 'taken', () => 'refused');
    is(`hostile ${JSON.stringify(bad)}`, said, 'refused');
  }
}

const REFUSED = [
  ['', TEXT_FAULT.BAD_HEADER, 1, 'pram 1'],
  ['pram 1\ncells x', TEXT_FAULT.BAD_NUMBER, 2, '“x” must be a number'],
  ['pram 1\ncells 0', TEXT_FAULT.OUT_OF_LIMITS, 2, '1 to 65,536'],
  ['é', TEXT_FAULT.NOT_ASCII, 1, '“é” in column 1'],
  ['code x', TEXT_FAULT.BAD_HEADER, 1, 'does not stand here'],
  ['pram 3\ncells 4\nprocs 1\nsteps 1\nrule crew\narray A 1 4', TEXT_FAULT.OUT_OF_LIMITS, 6,
    'An array has a cell'],
  ['pram 3\ncells 4\nprocs 1\nsteps 1\nrule crew\narray r0 0 4', TEXT_FAULT.BAD_HEADER, 6,
    '“r0” names an array already or can name none'],
];
const CODE_REFUSED = [
  ['ld r1', TEXT_FAULT.WRONG_OPERANDS, 'or too many. “ld” needs two registers, as in “ld r1 r0”'],
  ['again: ld r1', TEXT_FAULT.WRONG_OPERANDS, '“ld” needs two registers, as in “ld r1 r0”'],
  ['mov r1 r2', TEXT_FAULT.UNKNOWN_INSTRUCTION, 'no instruction “mov”. There are set, pid, add'],
  ['add r1 r2 r4', TEXT_FAULT.BAD_REGISTER, '“r4” is no register'],
  ['a: halt\na: halt', TEXT_FAULT.DUPLICATE_LABEL, 'an earlier line defines this label. It is “a”.'],
  ['jmp nowhere', TEXT_FAULT.UNKNOWN_LABEL, 'A line defines “nowhere” by beginning with “nowhere:”.'],
  ['', TEXT_FAULT.NO_CODE, 'no instruction follows'],
  ['halt\n'.repeat(4097), TEXT_FAULT.TOO_LONG, 'at most 4,096'],
  ['3: halt', TEXT_FAULT.UNKNOWN_INSTRUCTION, 'A label is a letter'],
  ['a:', TEXT_FAULT.UNKNOWN_INSTRUCTION, 'must stand after the label'],
  ['set r1 4294967296', TEXT_FAULT.OUT_OF_LIMITS, 'at most 4,294,967,295'],
  ['set r1 x', TEXT_FAULT.BAD_NUMBER, '“x” must be a number'],
];

function testRefused(core, name, text, fault, words) {
  const judged = core.judge(text);
  is(`${name}: fault`, [judged.code, judged.fault].join(), [CODE.NO_JOB, fault].join());
  const line = text.split('\n')[judged.line - 1];
  const said = wordsOfFault(judged.fault, line ?? '');
  is(`${name}: words`, said.includes(words) || said, true);
}

function testRefusals(core) {
  for (const [text, fault, line, words] of REFUSED) {
    testRefused(core, JSON.stringify(text), text, fault, words);
    is(`${JSON.stringify(text)}: line`, core.judge(text).line, line);
  }
  const head = 'pram 1\ncells 4\nprocs 2\nsteps 3\ncode\n';
  for (const [code, fault, words] of CODE_REFUSED) {
    testRefused(core, JSON.stringify(code.slice(0, 20)), head + code, fault, words);
  }
}

function eventOf(kind, body) {
  const events = roomForEvents(1);
  putEvent(events, 0, kind, body);
  return events;
}

function testSizes(core) {
  const text = 'pram 1\ncells 1\nprocs 1\nsteps 4294967295\ncode\n'
    + 'set r1 1\nagain: add r0 r0 r1\njmp again\n';
  is('an endless job', core.answer(text, core.judge(text), 1000).code, CODE.TOO_FAR);
  const all = { from: 0, places: 6 };
  const bad = core.scene(text, LIMIT.WORKERS_MOST + 1, roomForEvents(0), all);
  is('too many workers', bad.code, CODE.BAD_WORKERS);
  is('an unknown body', core.scene(text, 2, eventOf(ACT.GO, 2), all).code, CODE.BAD_EVENT);
  is('an unknown event', core.scene(text, 2, eventOf(7, 0), all).code, CODE.BAD_EVENT);
  const { state, requests } = core.moment('pram 1\ncells 1\nprocs 1\nsteps 1\ncode\nhalt\n',
    { places: 6, procs: 1 }, 2, 10);
  is('a step past the end', `${state.code} ${requests.code}`, `${CODE.NO_STEP} ${CODE.NO_STEP}`);
}

// Processor 1 names a cell that there is not in step 3, the last one.
const LEAVING = 'pram 1\ncells 2\nprocs 2\nsteps 3\ncode\n'
  + 'pid r0\nadd r1 r0 r0\nst r1 r0\nhalt\n';

function testFates(core) {
  const told = core.fates(LEAVING);
  const { end: { kind, count, first, line }, lost } = told;
  is('how processors end', [told.code, kind, count, first, line].join(),
    [CODE.DONE, END.RUNNING, 1, 0, 9].join());
  is('which is lost', [lost.processor, lost.step, lost.line].join(), '1,3,8');
}

// Numbers that the core's source has without a name are those that the page has names for.
function testKinds(core) {
  const text = LEAVING.replace('steps 3', 'steps 9');
  const job = core.judge(text);
  const statusesAt = (step) =>
    core.moment(text, job, step, MOST).requests.list.map(({ status }) => status).join();
  is('who runs', statusesAt(0), [STATUS.RUNS, STATUS.RUNS].join());
  is('who has stopped', statusesAt(8), [STATUS.HALTED, STATUS.OUT_OF_RANGE].join());
  const [lose, back] = [actOf(ACT.LOSE, 0), actOf(ACT.BACK, 0)];
  const doingAfter = (acts) => core.scene(text, 2, eventsOf(2, acts),
    { from: acts.length, places: job.places }).bodies[0].doing;
  is('a worker begins', doingAfter([]), DOING.BEGIN);
  is('is lost', doingAfter([lose]), DOING.LOST);
  is('and comes back', doingAfter([lose, back]), DOING.BACK);
}

// Going to a far moment is quick.
function testSpeed(core) {
  const text = readFileSync(join(folder, 'sort.pram'), 'utf8');
  const events = eventsOf(4, readActs(4, '0.1.2.3*99999'));
  const { places } = core.judge(text);
  core.scene(text, 4, events, { from: countEvents(events), places });
  const start = performance.now();
  core.scene(text, 4, events, { from: countEvents(events) - 100, places });
  const took = performance.now() - start;
  console.log(`399,996 events: ${took.toFixed(0)} ms`);
  is('399,996 events in a second', took < 1000 || took, true);
}

const MOST_BYTES = 480000;

// One file, not too large, that asks for nothing from outside.
function testFile() {
  const bytes = Buffer.byteLength(page);
  is('the page is under 480 KB', bytes < MOST_BYTES || bytes, true);
  const [, policy] = /http-equiv="Content-Security-Policy" content="([^"]*)"/.exec(page);
  is('nothing from outside is allowed', policy.startsWith("default-src 'none'; "), true);
  is('no address is allowed', /https?:|\*|'self'|unsafe-inline/.exec(policy)?.[0] ?? '', '');
  const parts = page.match(/<(script|link|img|iframe|object|embed|base)\b[^>]*>/g);
  const outside = parts.filter((tag) => /\s(src|href|data)=/.test(tag) && !/="data:,"/.test(tag));
  is('no part stands elsewhere', outside.join(), '');
  is('no link leads out of it', (page.match(/<a\b[^>]*\shref=/g) ?? []).join(), '');
  is('nor one of its style', /@import|url\(/.exec(page.split('<script', 1)[0])?.[0] ?? '', '');
}

const FIXED = [
  ['A[i] = 1', 'A[i] := 1'],
  ['A[i] <- 1 ; said', 'A[i] := 1 ; said'],
  ['A[i] += 2', 'A[i] := A[i] + 2'],
  ['x++', 'x := x + 1'],
  ['if i == 1\nend', 'if i = 1'],
  ['if i := 1\nend', 'if i = 1'],
  ['if i = 1\nelse if i = 2\nend', 'elsif i = 2'],
  ['if i = 1\nelseif i == 2\nend', 'elsif i = 2'],
  ['if i = 1 then\nend', 'if i = 1'],
  ['if i = 1\nend if', 'end'],
  ['x := i mod 2', 'x := i % 2'],
  ['x := log(4)', 'x := lg(4)'],
  ['x := 1 // one', 'x := 1 ; one'],
  ['for k = 0 to 3\n   if i = k\n      x := k', 'end'],
  ['x := 1', undefined],
  ['x := y', undefined],
];

// Each fix makes a program of what was none, and says the line that is another one.
function testFixes(core) {
  const head = 'pardo 1\nrule crew\nprocs i < 4\nshared A[4]\nprivate x\ncode\n';
  for (const [written, said] of FIXED) {
    const text = `${head}${written}\n`;
    const [fix] = fixesOf(core, text, core.lines(text));
    is(`a fix of “${written}”`, fix?.said, said);
    if (fix) is(`it is one: “${written}”`, core.lines(fix.text).code, CODE.DONE);
  }
}

function testStanding() {
  const code = 'code\nfor k = 0 to 1\n   a := 1\n   b := 2\nend\n';
  const lines = [2, 3, 4, 5, 3, 4, 5, undefined];
  const stands = (number, after, others = lines) =>
    numberOfStanding({ lines: others }, standingOf({ lines }, number, code, after));
  is('where it stood', stands(5, code), 5);
  is('after a line that is new', stands(5, code.replace('for', '; new\nfor'),
    [3, 4, 5, 6, 4, 5, 6, undefined]), 5);
  is('in fewer rounds', stands(5, code.replace('to 1', 'to 0'), [2, 3, 4, 5, undefined]), 2);
  is('at a line that is gone', stands(5, code.replace('   b := 2\n', ''),
    [2, 3, 4, 3, 4, undefined]), 0);
  is('at the end', stands(7, `${code}c := 3\n`, [2, 3, 4, 5, 3, 4, 5, 6, undefined]), 8);
}

function testColours() {
  const said = piecesOfLine('if i = 12 ; a 1', 'pardo')
    .map(({ text, kind }) => (kind ? `${kind} ${text}` : text));
  is('pieces of a line', said.join('|'), 'word if| |i| = |number 12| |comment ; a 1');
  const lines = ['for k = 0 to 3', '  if i = k', '    x := 1', '  else', '    x := 2', '  end', 'end',
    'x := 3'];
  const blocks = [0, 2, 3, 6, 7].map((at) => blockAround(lines, at).join());
  is('blocks around lines', blocks.join(' '), '0,6 1,3,5 1,3,5 0,6 ');
}

const core = await coreOf(pagePath);
const names = readdirSync(folder).filter((name) => name.endsWith('.pram')).sort();
for (const name of names) testProgram(core, name.replace(/\.pram$/, ''));
const programs = readdirSync(folder).filter((name) => name.endsWith('.pardo')).sort();
for (const name of programs) testPardo(core, name.replace(/\.pardo$/, ''));
testFile();
testFixes(core);
testColours();
testStanding();
testNames(core);
testHiddenRows(core);
testPardoRefusals(core);
testAtWork();
testLoopsInWords(core);
testActs();
testPlan();
await testAddress();
await testShown();
testRefusals(core);
testSizes(core);
testFates(core);
testKinds(core);
testSpeed(core);
await testExercises(core, exercisesOf(pagePath), is);
const replayed = pramx ? ['prefix', 'broadcast', 'leader_priority'] : [];
for (const name of replayed) testReplay(core, name, tmpdir());
end();
