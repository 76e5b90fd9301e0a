// What became of the processors, in words.
import { END } from './declared.js';
import { grouped } from './numbers.js';
import { counted, english, phrase } from './words.js';

// The line of the text: of a program that is another than the line of its job's text.
const lineIn = ({ source, program }, line) =>
  grouped(source ? program.find(({ at }) => at === line)?.line ?? line : line);

function endOf(job, { kind, count, first, line, step }) {
  switch (kind) {
    case END.RUNNING:
      return counted(count, 'It ended with {0} processor still running (P{1} in line {2}).',
        'It ended with {0} processors still running (P{1} in line {2}).', first, lineIn(job, line));
    case END.STOPPED: return phrase('All had stopped after step {0}.', grouped(step));
    default: return '';
  }
}

const LOST = english('Processor {0} stopped in step {1} at line {2}: no such cell.');
const LOST_OF_PROGRAM =
  english('Processor {0} stopped in step {1} at line {2}: its array has no such place.');

function lostOf(job, { processor, step, line }) {
  if (step === 0) return '';
  return phrase(job.source ? LOST_OF_PROGRAM : LOST, processor, grouped(step), lineIn(job, line));
}

export function endInWords(job, fates) {
  if (!fates) return '';
  return [endOf(job, fates.end), lostOf(job, fates.lost)].filter(Boolean).join(' ');
}
