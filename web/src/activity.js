// Who is active in a line of a program, and why others are not. A processor that was in none of the
// masks waits; one whose index was past its array is gone; at the end all are done.
import { STATUS } from './kinds.js';
import { counterPlace, statusOf } from './places.js';
import { english } from './words.js';

export const STATE = {
  ACTIVE: english('active'), WAITS: english('waits'), GONE: english('gone'), DONE: english('done'),
};

const statusAt = (job, places, processor) =>
  statusOf(job, places[counterPlace(job, processor)]);

export function statesAt(job, places, line) {
  return Array.from({ length: job.procs }, (_, processor) => {
    const status = statusAt(job, places, processor);
    if (status === STATUS.OUT_OF_RANGE) return STATE.GONE;
    if (line === undefined || status === STATUS.HALTED) return STATE.DONE;
    return job.source.isActive(places, processor, line) ? STATE.ACTIVE : STATE.WAITS;
  });
}

export const activeOf = (states) =>
  states.flatMap((state, processor) => (state === STATE.ACTIVE ? [processor] : []));

// How many are active in a line: `mask` is the first cell of the line's mask, where it has one.
export function countActive(job, places, mask) {
  let count = 0;
  for (let processor = 0; processor < job.procs; processor += 1) {
    const isIn = mask === undefined || places[mask + processor] !== 0;
    if (isIn && statusAt(job, places, processor) === STATUS.RUNS) count += 1;
  }
  return count;
}
