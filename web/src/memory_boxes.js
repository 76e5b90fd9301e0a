// What the boxes of the memory and the lines of the text show of a step of the plain machine, or of
// the steps that a line of a program takes.
import { labelOf } from './cells.js';
import { STATUS, TARGET } from './kinds.js';
import { ranges, shortened } from './numbers.js';
import { phrase } from './words.js';

function byNumber(requests, numberOf) {
  const found = new Map();
  requests.forEach((request, processor) => {
    const number = numberOf(request);
    if (number < 0) return;
    if (!found.has(number)) found.set(number, []);
    found.get(number).push(processor);
  });
  return found;
}

const cellRead = (request) => request.reads - 1;
const cellWritten = (request) => (request.target === TARGET.CELL ? request.number : -1);

// By cell those that go to it in one of these steps.
function goersOf(lists, numberOf) {
  const found = new Map();
  for (const list of lists) {
    for (const [cell, processors] of byNumber(list, numberOf)) {
      found.set(cell, [...new Set([...(found.get(cell) ?? []), ...processors])]);
    }
  }
  return found;
}

const inOrder = (processors) => [...processors].sort((one, other) => one - other);

export const named = (processors, most) => `P${shortened(ranges(inOrder(processors)), most)}`;

// Who reads and who writes each cell next, and which were written just before: of each step the
// requests of all processors.
export function boxesOf(job, places, asked, before, disputed) {
  const readers = goersOf(asked, cellRead);
  const writers = goersOf(asked, cellWritten);
  const written = goersOf(before, cellWritten);
  return (cell) => {
    const read = readers.get(cell);
    const wrote = writers.get(cell);
    const kinds = [read && 'is-read', wrote && 'is-written', written.has(cell) && 'is-new',
      cell === disputed && 'is-disputed'];
    const notes = [read && phrase('read by {0}', named(read, 40)),
      wrote && phrase('written by {0}', named(wrote, 40))];
    return {
      ...labelOf(job, cell),
      value: places[cell],
      note: notes.filter(Boolean).join(', '),
      kind: kinds.filter(Boolean).join(' '),
    };
  };
}

// The lines in the editor: at which instruction each processor is.
export function marksOf(program, requests, fault) {
  const standing = byNumber(requests, (request) =>
    (request.status === STATUS.RUNS ? program[request.counter]?.line ?? -1 : -1));
  const marks = new Map();
  for (const [line, processors] of standing) {
    const clashes = fault && processors.some((one) => one === fault.first || one === fault.second);
    marks.set(line, { kind: clashes ? 'clash' : 'current', badge: named(processors, 12) });
  }
  return marks;
}
