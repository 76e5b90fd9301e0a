// A moment of the plain machine in words.
import { STATE, activeOf } from './activity.js';
import { CODE, RULES } from './declared.js';
import { endInWords } from './ends.js';
import { STATUS } from './kinds.js';
import { loopsAround } from './loop_names.js';
import { named } from './memory_boxes.js';
import { grouped, shortened } from './numbers.js';
import { nameOfPlace } from './places.js';
import { instructionInWords } from './processors.js';
import { lineOf } from './text_lines.js';
import { counted, phrase } from './words.js';

const clashersOf = (requests, { first, second }) =>
  [first, second].map((processor) => ({ processor, request: requests[processor] }));

function conflictInWords({ job }, requests, fault) {
  const asks = clashersOf(requests, fault).flatMap(({ processor, request }) =>
    [processor, request.value, instructionInWords(job.program, request)]);
  return phrase('Conflict: step {0} is against the rule {1}, at {2}. Processor {3} writes {4} ' +
    '(line {5}). Processor {6} writes {7} (line {8}). The machine ends before this step.',
    grouped(fault.step), RULES[job.rule], nameOfPlace(job, fault.cell), ...asks);
}

export function momentInWords(app, requests, fault) {
  if (fault) return conflictInWords(app, requests, fault);
  if (app.answer.code === CODE.DONE && app.step === app.answer.step) {
    const end = endInWords(app.job, app.whole.fates());
    return counted(app.step, 'Done: the job ends after {0} step. {1}',
      'Done: the job ends after {0} steps. {1}', end).trim();
  }
  const running = requests.filter((request) => request.status === STATUS.RUNS).length;
  const next = running === 0 ? phrase('All processors have stopped.')
    : counted(running, '{0} processor of {1} has an instruction to do.',
      '{0} processors of {1} have an instruction to do.', grouped(requests.length));
  return phrase('After step {0} of {1}. {2}', grouped(app.step), grouped(app.job.steps), next);
}

// ---- a program

// The variables of the loops around a line: each has one value for all that are there, active or
// not. One that is gone keeps what it had.
function loopsInWords({ job, runText: text }, line, places, processor) {
  const { loops } = job.source;
  const names = loopsAround(text, line);
  return loops.slice(0, names.length)
    .map(({ base }, nest) => `${names[nest]} = ${places[base + processor]}`).join(', ');
}

function clashInWords(job, line, requests, fault) {
  const asks = clashersOf(requests, fault).flatMap(({ processor, request }) =>
    [processor, request.value]);
  return phrase('Conflict: line {0} is against the rule {1}, at {2}: processor {3} writes {4}, ' +
    'processor {5} writes {6}. The program ends before it.', grouped(line), RULES[job.rule],
    nameOfPlace(job, fault.cell), ...asks);
}

// Who is active in a line, within these loops.
function activeInWords(active, all, loops) {
  if (active.length === 0) {
    return loops ? phrase('No processor is active with {0}', loops)
      : phrase('No processor is active');
  }
  const parts = [named(active, 24), grouped(all), loops];
  return loops
    ? counted(active.length, '{1}, {0} of {2}, is active with {3}',
      '{1}, {0} of {2}, are active with {3}', ...parts)
    : counted(active.length, '{1}, {0} of {2}, is active', '{1}, {0} of {2}, are active', ...parts);
}

const doneInWords = (lines, steps) => phrase('{0}, {1} of the machine',
  counted(lines, '{0} line', '{0} lines'), counted(steps, '{0} step', '{0} steps'));

// What a line is about: `requests` are those of its last step, `states` say who is active.
export function lineInWords(app, { line, number, places, states, requests, fault }) {
  const { job, runText: text } = app;
  if (fault) return clashInWords(job, line, requests, fault);
  const lines = doneInWords(number, app.step);
  if (line === undefined) {
    return phrase('Done: the program is over after {0}. {1}', lines,
      endInWords(job, app.whole.fates())).trim();
  }
  const says = shortened(lineOf(text, line).split(';', 1)[0].trim(), 80);
  const loops = loopsInWords(app, line, places, states.findIndex((state) => state !== STATE.GONE));
  const who = activeInWords(activeOf(states), job.procs, loops);
  return phrase('Line {0}: {1}. {2}. Done so far: {3}.', grouped(line), says, who, lines);
}
