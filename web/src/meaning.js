// What an atomic step meant, and what a worker is about, in words. The rows are the core's.
import { ACT, bodyOf, kindOf } from './acts.js';
import { FORM, OP } from './declared.js';
import { DOING, PART } from './kinds.js';
import { grouped } from './numbers.js';
import { passName, passOfPhase, stepOfPhase } from './phases.js';
import { nameOfPlace } from './places.js';
import { counted, english, phrase } from './words.js';

// The workers, of which there are so many, and their twins, which are told apart by their number.
export function namesOfBodies(workers, count) {
  return workers.map((worker, body) =>
    (body < count ? phrase('worker {0}', worker)
      : phrase('twin {0} (of worker {1})', body, worker)));
}

const ASKED = {
  [PART.PLACE]: english('the data place that processor {0} asks for'),
  [PART.VALUE]: english('the value that processor {0} asks for'),
  [PART.NEXT]: english('the next counter that processor {0} asks for'),
};

function nameOfNode(job, node) {
  if (node === 1) return job.leaves === 1 ? phrase('the root and only leaf') : phrase('the root');
  if (node < job.leaves) return phrase('node {0}', node);
  const processor = node - job.leaves;
  return processor < job.procs ? phrase('the leaf of processor {0}', processor)
    : phrase('the spare leaf {0}', node);
}

function nameOfWord(job, row) {
  switch (row.form) {
    case FORM.CONFLICT: return phrase('the conflict word');
    case FORM.NODE: return nameOfNode(job, row.which);
    case FORM.ASKED: return phrase(ASKED[row.part], row.which);
    case FORM.POSITION: return phrase('the position of worker {0}', row.which);
    case FORM.STORED: {
      const text = row.older ? english('the older word of {0}') : english('the newer word of {0}');
      return phrase(text, nameOfPlace(job, row.which));
    }
    case FORM.CLAIM: return phrase('the claim on {0}', nameOfPlace(job, row.which));
    default: return phrase('a spare word');
  }
}

function phaseInWords(job, phase) {
  if (phase === 0) return phrase('nothing finished');
  const pass = passName(job.rule, passOfPhase(phase));
  return phrase('finished up to step {0}, {1}', grouped(stepOfPhase(phase)), pass);
}

function requestInWords(job, row, stamp, payload) {
  if (stamp === 0) return phrase('nothing yet');
  if (row.part !== PART.PLACE) return phrase('{0} for step {1}', payload, grouped(stamp));
  return payload === 0 ? phrase('none for step {0}', grouped(stamp))
    : phrase('{0} for step {1}', nameOfPlace(job, payload - 1), grouped(stamp));
}

// What a word of this form says with this value.
function valueInWords(job, row, value, stamp, payload) {
  switch (row.form) {
    case FORM.CONFLICT: return value === 0 ? phrase('none') : phrase('step {0}', grouped(value));
    case FORM.NODE: return phaseInWords(job, value);
    case FORM.POSITION: return nameOfNode(job, value);
    case FORM.ASKED: return requestInWords(job, row, stamp, payload);
    case FORM.CLAIM:
      return stamp === 0 ? phrase('none')
        : phrase('processor {0} in step {1}', job.procs - payload, grouped(stamp));
    default: return phrase('{0} of step {1}', payload, grouped(stamp));
  }
}

const before = (job, row) =>
  valueInWords(job, row, row.before, row.beforeStamp, row.beforePayload);
const after = (job, row) => valueInWords(job, row, row.after, row.afterStamp, row.afterPayload);

function maxInWords(job, who, row) {
  const parts = [who, nameOfWord(job, row), after(job, row)];
  if (!row.isChange) return phrase('{0} finds {1} raised already: {2}', ...parts);
  if (row.form === FORM.NODE) return phrase('{0} marks {1}: {2}', ...parts);
  if (row.form === FORM.CLAIM) return phrase('{0} sets {1}: {2}', ...parts);
  return phrase('{0} writes {1}: {2}', ...parts);
}

function swapInWords(job, who, row) {
  const now = after(job, row);
  if (row.form === FORM.CONFLICT) {
    return row.isChange ? phrase('{0} names the conflict: {1}', who, now)
      : phrase('{0} finds the conflict named already: {1}', who, now);
  }
  return row.isChange
    ? phrase('{0} swaps {1}: {2} becomes {3}', who, nameOfWord(job, row), before(job, row), now)
    : phrase('{0} comes too late to swap a word of {1}: it stays {2}', who,
      nameOfPlace(job, row.which), now);
}

function operationInWords(job, who, row) {
  switch (row.kind) {
    case OP.LOAD:
      return phrase('{0} reads {1}: {2}', who, nameOfWord(job, row), before(job, row));
    case OP.STORE: return phrase('{0} walks to {1}', who, after(job, row));
    case OP.MAX: return maxInWords(job, who, row);
    case OP.SWAP: return swapInWords(job, who, row);
    default: return phrase('{0} makes no step: it is lost or over', who);
  }
}

const ACTS_IN_WORDS = {
  [ACT.LOSE]: english('{0} is lost, with all that it knew'),
  [ACT.BACK]: english('{0} comes back, knowing nothing'),
  [ACT.SLEEP]: english('{0} falls asleep'),
  [ACT.WAKE]: english('{0} wakes, as if no time had passed'),
  [ACT.TWIN]: english('{0} starts beside it'),
};

// What an act meant. `row` is the core's, where the act is an event of the core.
export function actInWords(job, names, act, row) {
  const kind = kindOf(act);
  const who = names[kind === ACT.TWIN && row ? row.body : bodyOf(act)];
  return kind === ACT.GO ? operationInWords(job, who, row) : phrase(ACTS_IN_WORDS[kind], who);
}

// Where a body stands and what it is about.
export function bodyInWords(job, row) {
  switch (row.doing) {
    case DOING.LOST: return phrase('Lost.');
    case DOING.BACK: return phrase('Comes back: is about to read where it stood.');
    case DOING.BEGIN:
      return counted(row.heard, 'Begins at {1}: looks for the phase; {0} step of its script made.',
        'Begins at {1}: looks for the phase; {0} steps of its script made.',
        nameOfNode(job, row.node));
    case DOING.TURN:
      return counted(row.heard, 'At {1}: phase {2} (step {3}, {4}); {0} step of its script made.',
        'At {1}: phase {2} (step {3}, {4}); {0} steps of its script made.',
        nameOfNode(job, row.node), grouped(row.phase), grouped(row.step),
        passName(job.rule, row.pass));
    case DOING.DONE: return phrase('Over: all steps are finished.');
    default: return phrase('Over: step {0} is against the rule.', grouped(row.step));
  }
}

export const nodeInWords = (job, node, phase) =>
  `${nameOfNode(job, node)}: ${phaseInWords(job, phase)}`;
