// Judges exercises: the core says by its proved judge whether a text meets one, and what is wrong.
import {
  BAR, CODE, JOB_FAULT, MODELS, PROGRAM_SENTENCES, SHARING, UNFIT, WRONG,
} from './declared.js';
import { sizesInWords } from './exercises.js';
import { grouped, shortened } from './numbers.js';
import { wordsOfProgramFault } from './program_faults.js';
import { Source } from './source.js';
import { lineOf } from './text_lines.js';
import { english, phrase } from './words.js';

// Of so many steps at most it is looked up which line wrote a place last.
const MOST_LOOKED = 2000;

const MOST_LETTERS = 60;

const faultInWords = (fault, line, text) =>
  phrase('line {0}: {1}', grouped(line), wordsOfProgramFault(fault, lineOf(text, line)));

// ---- a value

// The cell of a place, as `A[3]` or `A[1,2]`.
function cellOf({ arrays }, place) {
  const [, name, row, column] = /^(\w+)(?:\[(\d+)(?:,(\d+))?\])?$/.exec(place) ?? [];
  const { base, width } = arrays.find((array) => array.name === name) ?? {};
  return base + (column === undefined ? Number(row ?? 0) : row * width + Number(column));
}

function goneInWords({ fates: { lost: { processor, step } }, lines }) {
  return step === 0 ? ''
    : phrase('Processor {0} is gone since line {1}, where its array has no such place.',
      processor, grouped(lines.get(step)));
}

// A value that is wrong, with the line that wrote it, where that was looked up.
function heldInWords(parts, { isKnown, line }) {
  if (!isKnown) return phrase('{0} holds {1}, wanted {2}.', ...parts);
  return line === undefined ? phrase('{0} holds {1}, wanted {2}; no line wrote it.', ...parts)
    : phrase('{0} holds {1}, wanted {2}; line {3} wrote it last.', ...parts, grouped(line));
}

// The first place that is wrong, and which line wrote it last.
async function valueInWords(ask, { text: place, held, wanted }, given) {
  const parts = [place, grouped(held), grouped(wanted)];
  const trial = await ask('trial', [given]);
  if (trial.made.code !== CODE.DONE) return heldInWords(parts, {});
  const cell = cellOf(new Source([], trial.made), place);
  const isKnown = trial.answer.step <= MOST_LOOKED;
  const line = isKnown ? await ask('lastWrite', [trial, cell]) : undefined;
  return `${heldInWords(parts, { isKnown, line })} ${goneInWords(trial)}`.trim();
}

// ---- what else is wrong

const CONFLICTS = {
  crew: english('processors {0} and {1} write {2} in line {3}, against the rule {4}.'),
  common: english('processors {0} and {1} write different values to {2} in line {3}, against ' +
    'the rule {4}.'),
};

// Two processors that meet at a place: who, where, in which line.
const partsOf = ({ first, second, text, line }) => [first, second, text, grouped(line)];

function conflictInWords(told, given) {
  const [, rule] = /^\s*rule\s+(\w+)/m.exec(given);
  return phrase(CONFLICTS[rule], ...partsOf(told), rule);
}

// What two processors do with one place.
const MEETINGS = {
  [SHARING.SAME_READ]: english('it needs {4}: processors {0} and {1} read {2} in line {3}.'),
  [SHARING.SAME_WRITE]: english('it needs {4}: processors {0} and {1} write {2} in line {3}.'),
  [SHARING.OTHER_VALUE]:
    english('it needs {4}: processors {0} and {1} write different values to {2} in line {3}.'),
};

const EXCESS = {
  [BAR.TIME]: english('all is right, but its time is {0}; at most {1} is allowed here.'),
  [BAR.OPERATIONS]:
    english('all is right, but it makes {0} operations; at most {1} are allowed here.'),
  [BAR.STEPS]:
    english('all is right, but the machine makes {0} steps; at most {1} are allowed here.'),
  [BAR.LINES]: english('all is right, but in {0} lines of code; at most {1} are allowed.'),
};

// What is wrong on an input, in words.
function wrongInWords(ask, told, given) {
  switch (told.kind) {
    case WRONG.PROGRAM: return faultInWords(told.fault, told.line, given);
    case WRONG.CONFLICT: return conflictInWords(told, given);
    case WRONG.VALUE: return valueInWords(ask, told, given);
    case WRONG.BAR: return phrase(EXCESS[told.bar], grouped(told.took), grouped(told.most));
    case WRONG.GONE:
      return phrase('processor {0} is gone in line {1}.', told.first, grouped(told.line));
    case WRONG.PLACES: return phrase('{0} has length {1}, wanted {2}.', told.text,
      grouped(told.took), grouped(told.most));
    default: return phrase(MEETINGS[told.sharing], ...partsOf(told), MODELS[told.needs]);
  }
}

// ---- what is wrong on an input that is not shown: what kind it is of, and the line

const VEILED = {
  [WRONG.MISSING]: english('a line of the header is missing.'),
  [WRONG.CONFLICT]: english('two processors write one place in line {0}, against the rule.'),
  [WRONG.VALUE]: english('a value is not the one that is wanted.'),
  [WRONG.GONE]: english('a processor is gone in line {0}.'),
  [WRONG.PLACES]: english('a length is not the one that is wanted.'),
};

const VEILED_MEETINGS = {
  [SHARING.SAME_READ]: english('it needs {1}: two processors read one place in line {0}.'),
  [SHARING.SAME_WRITE]: english('it needs {1}: two processors write one place in line {0}.'),
  [SHARING.OTHER_VALUE]:
    english('it needs {1}: two processors write different values to one place in line {0}.'),
};

const VEILED_EXCESS = {
  [BAR.TIME]: english('all is right, but it takes too much time.'),
  [BAR.OPERATIONS]: english('all is right, but it makes too many operations.'),
  [BAR.STEPS]: english('all is right, but the machine makes too many steps.'),
  [BAR.LINES]: english('all is right, but in too many lines of code.'),
};

function veiledInWords({ kind, line, fault, bar, sharing, needs }) {
  switch (kind) {
    case WRONG.PROGRAM:
      return phrase('line {0}: {1}', grouped(line), phrase(PROGRAM_SENTENCES[fault]));
    case WRONG.BAR: return phrase(VEILED_EXCESS[bar]);
    case WRONG.MODEL: return phrase(VEILED_MEETINGS[sharing], grouped(line), MODELS[needs]);
    default: return phrase(VEILED[kind], grouped(line));
  }
}

const notYet = (said, given) => ({ isRight: false, said, given });

// Where a text is no program, that does not hang on the input.
const hangsOnInput = ({ kind, fault }) =>
  kind !== WRONG.PROGRAM || fault === JOB_FAULT.ENDLESS;

// The core has lines of the header as the exercise has them, which may be indented, and ends the
// last line, too.
function plain(given) {
  const code = Math.max(given.search(/^[ \t]*code\b/m), 0);
  return given.slice(0, code).replace(/^[ \t]+/gm, '') + given.slice(code, -1);
}

async function failedInWords(ask, exercise, text, told) {
  if (told.hidden === 1) {
    return notYet(phrase('Not yet, on input {0} of {1}, which is not shown: {2}', told.input,
      exercise.inputs.length, veiledInWords(told)));
  }
  if (told.kind === WRONG.MISSING) {
    return notYet(phrase('Not yet: the line “{0}” is missing. “Begin anew” brings it back.',
      told.text.split(' =', 1)[0].trim()));
  }
  const input = exercise.inputs[told.input - 1];
  const given = plain((await ask('given', [exercise.text, text, input.line])).text);
  const said = await wrongInWords(ask, told, given);
  if (!hangsOnInput(told)) return notYet(phrase('Not yet, {0}', said), given);
  const number = [told.input, exercise.inputs.length];
  const sizes = sizesInWords(input, exercise);
  return notYet(sizes === '' ? phrase('Not yet, on input {0} of {1}: {2}', ...number, said)
    : phrase('Not yet, on input {0} of {1} ({2}): {3}', ...number, sizes, said), given);
}

// ---- an exercise that cannot be judged by

const UNFITS = {
  [UNFIT.GIVEN]: english('the input in its line {0} sets a bad header: {1}'),
  [UNFIT.ANSWER]: english('the input in its line {0} says badly what is wanted: {1}'),
  [UNFIT.BAR]: english('a bar has no value with the input in its line {0}: {1}'),
  [UNFIT.REFERENCE]: english('its reference fails with the input in its line {0}: {1}'),
  [UNFIT.CONFLICT]: english('its reference ends in a conflict with the input in its line {0}'),
  [UNFIT.CONTRADICTION]:
    english('its reference ends with other values than the input in its line {0} wants'),
  [UNFIT.UNKNOWN]: english('nothing is named “{1}”, with the input in its line {0}'),
};

// What is wrong in a part, or the word that is not known.
function unfitInWords({ kind, line, fault, within, text }) {
  const why = fault === 0 ? shortened(text.split('=', 1)[0], MOST_LETTERS)
    : phrase('line {0}: {1}', grouped(within), phrase(PROGRAM_SENTENCES[fault]));
  return phrase('This exercise cannot be judged by: {0}',
    phrase(UNFITS[kind], grouped(line), why));
}

function passedInWords({ inputs, model }) {
  return model === undefined ? phrase('Right on all {0} inputs.', inputs.length)
    : phrase('Right on all {0} inputs, under {1}.', inputs.length, MODELS[model]);
}

// Tells whether a text meets an exercise, in words, and the text with the first input that it does
// not meet. `ask` calls the core, and promises what it tells.
export async function judgeExercise(ask, exercise, text) {
  const told = await ask('verdict', [exercise.text, text]);
  switch (told.code) {
    case CODE.PASSED: return { isRight: true, said: passedInWords(exercise) };
    case CODE.FAILED: return failedInWords(ask, exercise, text, told);
    case CODE.UNFIT: return notYet(unfitInWords(told));
    case CODE.TEXT_TOO_LONG: return notYet(phrase('Not yet: the text is too long.'));
    default: return notYet(phrase('The page is out of memory.'));
  }
}
