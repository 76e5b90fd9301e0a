// Exercises: each is a file that asks for lines of code, and says by which bars and on which inputs
// they are judged. The core reads them.
import { CODE, EXERCISE_FAULT, KEY, MODEL, MODELS } from './declared.js';
import { grouped, shortened } from './numbers.js';
import { english, phrase } from './words.js';

// An exercise of one's own may have so many characters, and so many of it are shown.
const MOST = 1000000;
const MOST_SHOWN = { title: 100, task: 2000, bar: 100 };

const MODELS_BY_WORD = {
  erew: MODEL.EREW, crew: MODEL.CREW, common: MODEL.COMMON_CRCW, priority: MODEL.PRIORITY_CRCW,
};

// What bounds a solution, as it is told with the task.
const BARS = {
  [KEY.TIME]: english('Time at most {0}.'),
  [KEY.OPERATIONS]: english('Operations at most {0}.'),
  [KEY.STEPS]: english('Steps of the machine at most {0}.'),
  [KEY.LINES]: english('Lines of code at most {0}.'),
};

const withoutComment = (text) => text.split(';', 1)[0].trim();

// The entries one after the other: what each says, its line and its text.
function entriesOf({ list, text }) {
  let at = 0;
  return list.map(({ key, line, bytes }) => {
    at += bytes;
    return { key, line, text: text.slice(at - bytes, at) };
  });
}

// The lines of a part without what the first one is indented by.
function linesOf(part) {
  const [indent] = /^[ \t]*/.exec(part);
  return part.split('\n').map((line) =>
    (line.startsWith(indent) ? line.slice(indent.length) : line.trimStart())).join('\n');
}

// The words NAME=TEXT of an input as pairs.
const pairsOf = (words) => words.trim().split(/\s+/).filter((word) => word.includes('='))
  .map((word) => [word.slice(0, word.indexOf('=')), word.slice(word.indexOf('=') + 1)]);

function inputOf({ key, line, text }) {
  const [given, wanted = ''] = ` ${withoutComment(text)} `.split(' -> ');
  return { line, isHidden: key === KEY.HIDDEN, given: pairsOf(given), wanted: pairsOf(wanted) };
}

function exerciseOf(entries) {
  const textsOf = (key) => entries.filter((entry) => entry.key === key).map(({ text }) => text);
  const [model = ''] = textsOf(KEY.MODEL);
  const bars = Object.keys(BARS).flatMap((key) => textsOf(Number(key))
    .map((text) => ({ key, most: withoutComment(text).replace(/^<=\s*/, '') })));
  return {
    title: shortened(textsOf(KEY.TITLE)[0].trim(), MOST_SHOWN.title),
    task: shortened(textsOf(KEY.TASK).map((text) => text.trim()).join(' '), MOST_SHOWN.task),
    model: MODELS_BY_WORD[withoutComment(model).toLowerCase()],
    bars,
    wanted: withoutComment(textsOf(KEY.WANT)[0]).split(/\s+/),
    given: linesOf(textsOf(KEY.GIVEN)[0]),
    start: linesOf(textsOf(KEY.START)[0]),
    reference: textsOf(KEY.REFERENCE)[0] ?? '',
    inputs: entries.filter(({ key }) => [KEY.INPUT, KEY.HIDDEN].includes(key)).map(inputOf),
  };
}

const FAULTS = {
  [EXERCISE_FAULT.NOT_ASCII]: english('it has a character that no text here may have'),
  [EXERCISE_FAULT.BAD_HEADER]: english('the first line has to be “exercise 1”'),
  [EXERCISE_FAULT.UNKNOWN_KEY]: english('no line of an exercise begins with this word'),
  [EXERCISE_FAULT.BAD_LINE]: english('something is wrong behind the first word'),
  [EXERCISE_FAULT.DUPLICATE]: english('it may stand once, and stands a second time'),
  [EXERCISE_FAULT.MISSING]: english('the text ends without “{0}”'),
  [EXERCISE_FAULT.NO_ANSWER]:
    english('this input does not say what is wanted, and there is no reference'),
};

const wordOf = (number) =>
  Object.keys(KEY).find((name) => KEY[name] === number).toLowerCase();

function faultInWords({ code, fault, line, lacks }) {
  if (code !== CODE.NO_EXERCISE) return phrase('it is too long');
  return phrase('line {0}: {1}', grouped(line), phrase(FAULTS[fault], wordOf(lacks)));
}

// Whether a text is meant as an exercise.
export const isExercise = (text) => /^\s*exercise\b/.test(text);

// A number of 32 bits for a text, in eight digits.
function hashOf(text) {
  let hash = 0x811c9dc5;
  for (let at = 0; at < text.length; at += 1) {
    hash = Math.imul(hash ^ text.charCodeAt(at), 0x01000193) >>> 0;
  }
  return hash.toString(16).padStart(8, '0');
}

// The exercise that a text spells, of the page by its name and its number, and one's own by a hash.
// Throws a RangeError that says why it is none.
export function readExercise(core, text, { name = hashOf(text), number = name } = {}) {
  const told = text.length > MOST ? { code: CODE.TEXT_TOO_LONG } : core.entries(text);
  if (told.code !== CODE.DONE) {
    throw new RangeError(phrase('the text is no exercise: {0}', faultInWords(told)));
  }
  return { ...exerciseOf(entriesOf(told)), text, name, number };
}

// Whether it came with the page.
export const isOfPage = ({ name, number }) => name !== number;

const headOf = ({ number, title }) => `; Exercise ${number}: ${title}`;

const isProgram = (text) => /^(?:[ \t]*(?:;.*)?\n)*[ \t]*pardo\b/.test(text);

// Whether a text is what someone made of the exercise.
export const isOf = (exercise, text) =>
  text.startsWith(`${headOf(exercise)}\n`) && isProgram(text);

// What a learner begins with.
export const startOf = (exercise) => `${headOf(exercise)}\n${exercise.given}${exercise.start}`;

// What is to be done, in words: those of one's own exercise stand as they are.
export function taskInWords({ name, number, task, model, bars, inputs }) {
  const hidden = inputs.filter(({ isHidden }) => isHidden).length;
  return [
    isOfPage({ name, number }) ? phrase(task) : task, model === undefined ? '' : phrase('Under {0}.', MODELS[model]),
    ...bars.map(({ key, most }) => phrase(BARS[key], shortened(most, MOST_SHOWN.bar))),
    phrase('Judge tries your lines on {0} inputs, of which {1} are not shown.', inputs.length,
      hidden),
  ].filter(Boolean).join(' ');
}

// The constants that an input sets, as `n = 5, m = 5`.
export function sizesInWords({ given }, { given: header }) {
  const isConstant = (name) => new RegExp(`^\\s*const ${name}\\b`, 'm').test(header);
  return given.filter(([name]) => isConstant(name)).map(([name, text]) => `${name} = ${text}`)
    .join(', ');
}
