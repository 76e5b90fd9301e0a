// What the core tells of a text: the lines of a program, or a job and its answer.
import { CODE } from './declared.js';

// The page makes so many steps of processors while one waits. A byte of a text takes as long as
// four of them.
const NEAR = 500000;
const BYTE = 4;

// The page shows so many processors at most.
export const MOST_PROCESSORS = 1024;

// How long it takes to make these steps of a job, beside how long one waits.
export const isNear = (text, steps) => steps + BYTE * text.length <= NEAR;

// A job's answer is not told where it is far, and not of a job that the page does not show.
export function readJob(core, text) {
  const judged = core.judge(text);
  if (judged.code !== CODE.DONE || judged.procs > MOST_PROCESSORS) return { judged };
  const most = Math.floor(NEAR / judged.procs);
  return { judged, most, answer: core.answer(text, judged, most) };
}

// A program is not compiled yet.
export function readText(core, text) {
  const read = core.lines(text);
  return read.code === CODE.OTHER_LANGUAGE ? { read, told: readJob(core, text) } : { read };
}
