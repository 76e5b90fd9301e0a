// What a board answers, beside the plain machine, in words.
import { areAlike } from './alike.js';
import { CODE } from './declared.js';
import { endInWords } from './ends.js';
import { grouped } from './numbers.js';
import { nameOfPlace } from './places.js';
import { english, phrase } from './words.js';

// Where nothing is compared, where the answer is the plain machine's, and where it is another one.
const DONE = {
  alone: english('Done.'),
  same: english('Done: the same answer as the plain machine’s. {0}'),
  other: english('Done: ANOTHER ANSWER THAN the plain machine’s. {0}'),
};
const CONFLICT = {
  alone: english('Conflict in step {1} at {2}.'),
  same: english('Conflict in step {1} at {2}: the same answer as the plain machine’s. {0}'),
  other: english('Conflict in step {1} at {2}: ANOTHER ANSWER THAN the plain machine’s. {0}'),
};

function comparisonOf(outcome, answer) {
  if (answer.code === CODE.TOO_FAR) return 'alone';
  return areAlike(outcome, answer) ? 'same' : 'other';
}

// `fates` are those of the plain machine's processors, where they are told.
export function outcomeInWords(job, outcome, answer, fates) {
  const { code, step, cell } = outcome;
  if (code === CODE.UNFINISHED) {
    return phrase('Unfinished: the last finished step is {0}.', grouped(step));
  }
  const comparison = comparisonOf(outcome, answer);
  const end = endInWords(job, fates);
  const said = code === CODE.DONE ? phrase(DONE[comparison], end)
    : phrase(CONFLICT[comparison], end, grouped(step), nameOfPlace(job, cell));
  return said.trim();
}
