// Puzzles: find a schedule that does something. What is asked for is looked up in what the core
// told of each act.
import { ACT, bodyOf, kindOf } from './acts.js';
import { CODE, FORM, OP } from './declared.js';
import { isFinish } from './film.js';
import { english, phrase } from './words.js';

const isGo = (act) => kindOf(act) === ACT.GO;

// Of a schedule: its acts, each with its number and its body; and whether the job is over.
function momentsOf({ acts, film }) {
  return acts.map((act, k) =>
    ({ k, kind: kindOf(act), body: bodyOf(act), isGo: isGo(act), effect: film.effectOf(k) }));
}

function lostForGood(moments) {
  const lost = new Set();
  for (const { kind, body, k } of moments) {
    if (kind === ACT.LOSE && moments.some((one) => one.isGo && one.body === body && one.k < k)) {
      lost.add(body);
    }
    if (kind === ACT.BACK) lost.delete(body);
  }
  return lost.size;
}

const isLate = ({ effect }) =>
  effect?.kind === OP.SWAP && effect.form === FORM.STORED && !effect.isChange;

// Whether a body sleeps while two steps are finished, and later finishes one itself.
function wakesAndFinishes({ film }, moments) {
  const finishes = moments.filter(({ k, isGo: went }) => went && isFinish(film.store, k));
  return moments.some(({ kind, body, k: asleep }) => {
    if (kind !== ACT.SLEEP) return false;
    const wake = moments.find((one) =>
      one.kind === ACT.WAKE && one.body === body && one.k > asleep);
    if (!wake) return false;
    const between = finishes.filter(({ k }) => k > asleep && k < wake.k).length;
    return between >= 2 && finishes.some((one) => one.body === body && one.k > wake.k);
  });
}

export const PUZZLES = [
  {
    title: english('one is enough'),
    task: english(
      'Lose two of the three workers for good, each after a step of its own, and let the job ' +
      'come to its end.'),
    isSolved: (schedule, moments, outcome) =>
      outcome.code === CODE.DONE && lostForGood(moments) >= 2,
  },
  {
    title: english('too late'),
    task: english(
      'Let a worker come too late to swap a word: it sleeps right before its swap, the others do ' +
      'its part, and it wakes.'),
    isSolved: (schedule, moments) => moments.some(isLate),
  },
  {
    title: english('asleep through two steps'),
    task: english(
      'Let a worker sleep while the others finish two steps of the machine. Then wake it, and ' +
      'let it be the one that finishes a later step.'),
    isSolved: (schedule, moments) => wakesAndFinishes(schedule, moments),
  },
].map((puzzle, k) =>
  ({ ...puzzle, number: k + 1, address: 'example=sum.pardo&view=workers&workers=3' }));

export function judgePuzzle(puzzle, board, outcome) {
  const { schedule } = board;
  board.now();
  const isRight = puzzle.isSolved(schedule, momentsOf(schedule), outcome);
  return {
    isRight,
    said: isRight ? phrase('Solved, in {0} acts.', schedule.length)
      : phrase('Not yet: no such thing happened.'),
  };
}
