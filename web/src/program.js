// What the core says of the text: its sizes and its answer, or its fault.
import { CODE, LIMIT, RULES } from './declared.js';
import { byId, setText } from './dom.js';
import { wordsOfFault } from './faults.js';
import { grouped, shortened } from './numbers.js';
import { nameOfPlace } from './places.js';
import { wordsOfProgramFault } from './program_faults.js';
import { MOST_PROCESSORS } from './reading.js';
import { instructionsOf, lineOf } from './text_lines.js';
import { counted, phrase } from './words.js';

// The page makes so many steps of processors at most.
const MOST_STEPS = 20000000;
const MOST_CHARACTERS = 600;
const MOST_ARRAYS = 100;

// What was told of a text of the machine; of one that was made of a program, with its source.
export function foundOf({ judged, most, answer }, text, source) {
  if (answer === undefined) return { judged };
  const program = source ? source.program : instructionsOf(text);
  return {
    judged,
    most,
    job: { ...judged, text, source, program, leaves: 1 },
    answer,
    isAnswering: answer.code === CODE.TOO_FAR,
  };
}

// Why a text is no program.
export const refused = (judged) => ({ judged: { ...judged, isProgram: true } });

// Makes a far answer in the other thread; `onTold` hears it.
export function answerFar(far, found, onTold) {
  const most = Math.floor(MOST_STEPS / found.judged.procs);
  far.ask('answer', [found.job.text, found.judged, most], (answer) =>
    onTold({ ...found, most, answer, isAnswering: false }));
}

// What an array holds: all of it, or of two indices row by row.
function arrayInWords({ name, base, len, width }, cells) {
  const held = (from, count) => cells.slice(from, from + count).join(' ');
  if (!width) return ` ${name} = ${held(base, len)}.`;
  return Array.from({ length: len / width }, (_, row) =>
    ` ${name}[${row}] = ${held(base + row * width, width)}.`).join('');
}

// What the arrays of a program hold, as `pramx plain` prints it.
function arraysInWords({ source }, cells) {
  const shown = (source?.arrays ?? []).slice(0, MOST_ARRAYS);
  return shortened(shown.map((array) => arrayInWords(array, cells)).join(''), MOST_CHARACTERS);
}

// Where the conflict is: in the line of a program, where it is known.
function conflictInWords(job, { step, cell, first, second }, line) {
  const parts = [nameOfPlace(job, cell), first, second];
  return line === undefined
    ? phrase('Its answer: a conflict in step {0} at {1}, between processors {2} and {3}.',
      grouped(step), ...parts)
    : phrase('Its answer: a conflict in line {0} at {1}, between processors {2} and {3}.',
      grouped(line), ...parts);
}

const outOfMemory = () => phrase('The page is out of memory.');

function answerInWords({ job, answer, most }, line) {
  switch (answer.code) {
    case CODE.DONE:
      return counted(answer.step, 'Its answer: done after {0} step.{1}',
        'Its answer: done after {0} steps.{1}', arraysInWords(job, answer.cells));
    case CODE.CONFLICT: return conflictInWords(job, answer, line);
    case CODE.TOO_FAR:
      return phrase('Its answer is more than {0} steps away, too far for this page: “pramx ' +
        'plain” goes on.', grouped(most));
    default: return outOfMemory();
  }
}

function jobInWords(found, line) {
  const { job, most, isAnswering } = found;
  const told = isAnswering
    ? phrase('Its answer is more than {0} steps away, and is being made.', grouped(most))
    : answerInWords(found, line);
  return phrase('{0}, {1}, {2}, rule {3}. {4}', counted(job.cells, '{0} cell', '{0} cells'),
    counted(job.procs, '{0} processor', '{0} processors'),
    counted(job.steps, '{0} step', '{0} steps'), RULES[job.rule], told);
}

function refusalInWords({ code, fault, line, procs, isProgram }, text) {
  switch (code) {
    case CODE.DONE:
      return phrase('The page shows up to {0} processors, and here are {1}: “pramx” takes them.',
        grouped(MOST_PROCESSORS), grouped(procs));
    case CODE.NO_JOB: {
      const wordsOf = isProgram ? wordsOfProgramFault : wordsOfFault;
      return phrase('Line {0}: {1}', grouped(line), wordsOf(fault, lineOf(text, line)));
    }
    case CODE.TEXT_TOO_LONG:
      return phrase('A text has at most {0} bytes.', grouped(LIMIT.TEXT_MOST));
    default: return outOfMemory();
  }
}

// Says it, and marks the line of a fault. `pace` is that of a program by its lines, where it is
// told: a conflict comes in the last one.
export function showJudgement(found, { text, editor }, pace) {
  const isRefused = found.job === undefined;
  setText(byId('fault'), isRefused ? refusalInWords(found.judged, text) : '');
  setText(byId('answer'), isRefused ? '' : jobInWords(found, pace?.lines.at(-1)));
  editor.setFault(isRefused);
  if (!isRefused) return;
  const { line } = found.judged;
  editor.mark(new Map([[line, { kind: 'fault', badge: '' }]]));
  if (line > 0) editor.reveal(line);
}

// Says what is done with the text.
export function showWaiting(words) {
  setText(byId('fault'), '');
  setText(byId('answer'), words);
}
