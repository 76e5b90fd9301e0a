// adversary_test.js PAGE EXAMPLES: the adversary's searches over the core that stands in the page,
// in Node.
import { readFileSync } from 'node:fs';
import { join } from 'node:path';
import { ACT, actOf, kindOf, writeActs } from '../src/acts.js';
import { WholeSearch } from '../src/adversary_all.js';
import { RandomSearch } from '../src/adversary_random.js';
import { eventsOf, isOver, readWhole, sceneAfter } from '../src/adversary_scene.js';
import { WorstSearch } from '../src/adversary_worst.js';
import { Board } from '../src/board.js';
import { CODE } from '../src/declared.js';
import { Draw } from '../src/draw.js';
import { DOING } from '../src/kinds.js';
import { Schedule } from '../src/schedule.js';
import { coreOf } from './page_parts.js';
import { report } from './report.js';

const MOST = 4294967295;
const [pagePath, folder] = process.argv.slice(2);
const { is, end } = report();

// What a search finds, to its end.
function foundBy(search) {
  while (search.goOn());
  return search.found();
}

function askedOf(core, text, more) {
  const job = core.judge(text);
  return { text, job, answer: core.answer(text, job, MOST), workers: 2, ...more };
}

const machineText = (procs, steps, ...code) =>
  `pram 1\ncells 2\nprocs ${procs}\nsteps ${steps}\ncode\n${code.join('\n')}\n`;

const kindsIn = (acts, kind) => acts.filter((act) => kindOf(act) === kind).length;

// Each worker is over or lost, and one at least is over.
function endsWell(core, asked, acts) {
  const events = eventsOf(acts);
  const { bodies } = sceneAfter(core, asked, events, events.length / 2);
  return bodies.every((row) => isOver(row) || row.doing === DOING.LOST) && bodies.some(isOver);
}

// What the page would have been told of the acts of a schedule from number `first` on.
function filmOf(core, { text, job, workers }, acts, first) {
  const schedule = new Schedule(workers, acts);
  new Board({ core, job: { ...job, text }, schedule }).now();
  return schedule.film.cut(first).join();
}

function testRandom(core) {
  const text = readFileSync(join(folder, 'maximum.pram'), 'utf8');
  const asked = askedOf(core, text, { workers: 3 });
  const drawn = (seed, meanness, more) =>
    foundBy(new RandomSearch(core, { ...asked, seed, meanness, ...more }));
  const texts = [7, 7, 8].map((seed) => writeActs(drawn(seed, 'mean').acts));
  is('the same seed, the same schedule', texts[0], texts[1]);
  is('another seed, another one', texts[0] === texts[2], false);
  for (const meanness of ['kind', 'mean', 'cruel']) {
    const found = [1, 2, 3, 4].map((seed) => drawn(seed, meanness));
    is(`${meanness}: the answer`, found.every(({ isSame }) => isSame), true);
    is(`${meanness}: one is over`, found.every(({ acts }) => endsWell(core, asked, acts)), true);
    is(`${meanness}: losses`, found.some(({ losses }) => losses > 0), meanness !== 'kind');
    is(`${meanness}: sleeps`, found.some(({ sleeps }) => sleeps > 0), true);
  }
  const { acts, told } = drawn(3, 'mean');
  is('what was told of it', told.join() === filmOf(core, asked, acts, 0), true);
  const alone = drawn(5, 'cruel', { workers: 1 });
  is('one alone is lost', alone.losses > 0, true);
  is('and comes back each time', alone.returns, alone.losses);
  is('to the answer', alone.isSame, true);
  const disputed = askedOf(core, readFileSync(join(folder, 'conflict.pram'), 'utf8'));
  is('a conflict', disputed.answer.code, CODE.CONFLICT);
  const found = foundBy(new RandomSearch(core, { ...disputed, seed: 1, meanness: 'mean' }));
  is('is found by random workers, too', found.isSame, true);
}

// The atomic steps of the others where a worker is lost before the turn of this number, told act by
// act: each in turn, the lost one left out from then on.
function stepsOfOthers(core, asked, lost, turn) {
  const bodies = [...Array(asked.workers).keys()];
  const acts = [];
  let steps = 0;
  for (let k = 0; ; k += 1) {
    const body = k % bodies.length;
    if (k === turn) acts.push(actOf(ACT.LOSE, lost));
    if (body === lost && k >= turn) continue;
    acts.push(actOf(ACT.GO, body));
    const { bodies: rows, effects } = sceneAfter(core, asked, eventsOf(acts), acts.length - 1);
    if (effects[0] > 0 && body !== lost) steps += 1;
    if (bodies.every((one) => (one === lost && k >= turn) || isOver(rows[one]))) return steps;
  }
}

function testWorst(core) {
  const going = [0, 1];
  const tiny = askedOf(core, machineText(1, 1, 'set r0 7'), { acts: [], going });
  const found = foundBy(new WorstSearch(core, tiny));
  const [{ most, least, tried, moments }] = found.losses;
  const all = going.flatMap((lost) => Array.from({ length: 33 }, (_, k) =>
    stepsOfOthers(core, tiny, lost, 2 * k + lost)));
  is('the worst of all moments', most, Math.max(...all));
  is('the kindest', least, Math.min(...all));
  is('each is tried', [tried, found.tries].join(), [moments, moments].join());
  is('one is lost', kindsIn(found.acts, ACT.LOSE), 1);
  is('and the answer is right', found.isSame, true);
}

// It is at least as bad as losses drawn by lot.
function testWorstOfSome(core) {
  const going = [0, 1, 2];
  const text = machineText(4, 3, 'pid r0', 'st r0 r0', 'halt').replace('cells 2', 'cells 4');
  const asked = askedOf(core, text, { workers: 3, acts: [], going });
  const { losses, acts } = foundBy(new WorstSearch(core, asked));
  is('each but one is lost', losses.map(({ lost }) => lost).sort().length, 2);
  is('and one ends', endsWell(core, asked, acts), true);
  const draw = new Draw(1);
  const drawn = Array.from({ length: 40 }, () =>
    stepsOfOthers(core, asked, draw.below(3), draw.below(900)));
  is('it is the worst', drawn.every((steps) => steps <= losses[0].most), true);
  const begun = Array.from({ length: 100 }, (_, k) => actOf(ACT.GO, k % 3));
  const later = { ...asked, acts: begun, going: [1, 2, 0] };
  const second = foundBy(new WorstSearch(core, later));
  is('from a moment on', second.losses.map(({ moment }) => moment >= 100).join(), 'true,true');
  const whole = [...begun, ...second.acts];
  is('what was told of it', second.told.join() === filmOf(core, asked, whole, 100), true);
  const twins = foundBy(new WorstSearch(core, { ...asked, acts: [actOf(ACT.TWIN, 1)],
    going: [0, 1, 2, 3] }));
  is('a twin is lost, too', [twins.losses.length, twins.isSame].join(), '3,true');
  const alone = foundBy(new WorstSearch(core, { ...asked, going: [0] }));
  is('nobody is lost where one is alone', alone.losses.length, 0);
}

// All schedules once more, in another way: the core is asked for each state and each act, with all
// acts from the start on. A state is the core's own words and rows, with what each worker heard in
// its script.
function reckonedBy(core, asked, kinds) {
  const known = new Map();
  const sceneOf = (acts) => sceneAfter(core, asked, eventsOf(acts), Math.max(acts.length - 1, 0),
    { readRows: readWhole, isWhole: true });
  const heardAfter = (heard, [{ kind, before, body, now }]) => {
    const one = kind === 0 || now.heard === 0 ? [] : [...heard[body], before];
    return heard.with(body, one);
  };
  const reckon = (acts, heard, { board, bodies }) => {
    const key = JSON.stringify([board, bodies, heard]);
    if (!known.has(key)) {
      const ways = bodies.flatMap((row, body) => (isOver(row) || row.doing === DOING.LOST ? []
        : kinds(body).map((kind) => actOf(kind, body))));
      const after = ways.map((act) => {
        const scene = sceneOf([...acts, act]);
        const told = reckon([...acts, act], heardAfter(heard, scene.effects), scene);
        const cost = kindOf(act) === ACT.GO ? 1 : 0;
        return { count: told.count, least: told.least + cost, most: told.most + cost };
      });
      known.set(key, ways.length === 0 ? { count: 1n, least: 0, most: 0 } : {
        count: after.reduce((sum, { count }) => sum + count, 0n),
        least: Math.min(...after.map(({ least }) => least)),
        most: Math.max(...after.map(({ most }) => most)),
      });
    }
    return known.get(key);
  };
  const told = reckon([], Array(asked.workers).fill([]), sceneOf([]));
  return [known.size, told.count, told.least, told.most].join();
}

const foundIn = ({ states, schedules, least, most }) => [states, schedules, least, most].join();

function testAll(core) {
  const text = machineText(1, 1, 'set r0 7');
  const asked = askedOf(core, text);
  const found = foundBy(new WholeSearch(core, asked));
  is('all schedules', foundIn(found), reckonedBy(core, asked, () => [ACT.GO]));
  is('how many', [found.states, found.least, found.most].join(), '2123,35,66');
  is('all have the answer', [found.isWhole, found.ends > 0, found.others].join(), 'true,true,0');
  const losing = foundBy(new WholeSearch(core, { ...asked, isLosing: true }));
  is('with a loss', foundIn(losing), reckonedBy(core, asked, (body) =>
    (body === 1 ? [ACT.GO, ACT.LOSE] : [ACT.GO])));
  is('they are more', losing.schedules > found.schedules && losing.others === 0, true);
  const alone = foundBy(new WholeSearch(core, { ...asked, workers: 1, isLosing: true }));
  is('one alone has one schedule', foundIn(alone), '34,1,33,33');
  const wrong = { ...asked, answer: { ...asked.answer, cells: Uint32Array.of(9, 9) } };
  const { ends, others } = foundBy(new WholeSearch(core, wrong));
  is('another answer is found', [ends, others].join(), [found.ends, found.ends].join());
}

function testSlowest(core) {
  const asked = askedOf(core, machineText(2, 2, 'pid r0', 'st r0 r0'));
  const { acts, least, most, states, others } = foundBy(new WholeSearch(core, asked));
  is('two processors', [states, least, most, others].join(), '86226,210,336,0');
  const events = eventsOf(acts);
  const { effects } = sceneAfter(core, asked, events, 0);
  is('each act of the slowest is a step', [effects.length, effects.includes(0)].join(),
    `${most},false`);
  is('and it ends', endsWell(core, asked, acts), true);
  const drawn = Array.from({ length: 60 }, (_, seed) =>
    foundBy(new RandomSearch(core, { ...asked, seed, meanness: 'kind' })).steps);
  is('random ones are no slower', drawn.every((steps) => steps >= least && steps <= most), true);
}

function testOtherEnds(core) {
  const disputed = machineText(2, 2, 'pid r0', 'st r1 r0');
  const asked = askedOf(core, disputed);
  is('a program with a conflict', asked.answer.code, CODE.CONFLICT);
  const found = foundBy(new WholeSearch(core, asked));
  is('has it in all schedules', [found.isWhole, found.ends > 1, found.others].join(),
    'true,true,0');
  const large = askedOf(core, machineText(1024, 9, 'pid r0', 'st r0 r0').replace('lls 2', 'lls 1024'));
  const part = foundBy(new WholeSearch(core, large));
  is('what is too large is left', [part.isWhole, part.states > 1000, part.acts].join(),
    'false,true,');
}

const core = await coreOf(pagePath);
testRandom(core);
testAll(core);
testSlowest(core);
testOtherEnds(core);
testWorst(core);
testWorstOfSome(core);
end();
