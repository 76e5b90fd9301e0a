// The processors as a table: counter, registers, and what each asks for in the next step.
import { byId, fit, make, setAttribute, setText } from './dom.js';
import { followText } from './following.js';
import { STATUS, TARGET } from './kinds.js';
import { grouped } from './numbers.js';
import { counterPlace, nameOfPlace, registersOf, statusOf } from './places.js';
import { openWindow } from './window.js';
import { english, phrase } from './words.js';

const IN_SIGHT = 32;
const COLUMNS = [english('processor'), 'r0', 'r1', 'r2', 'r3', english('counter'),
  english('instruction'), english('reads'), english('writes'), english('goes to')];

export const PROCESSORS_IN_SIGHT = {
  from: english('from processor {0}'),
  earlier: english('earlier processors'),
  later: english('later processors'),
};

function makeRow() {
  const cells = COLUMNS.slice(1).map((name) => make('td', { 'data-name': name }));
  return make('tr', {}, make('th', { scope: 'row' }), ...cells);
}

// An instruction, by its index, as it stands in the text.
export function instructionInWords(instructions, { counter }) {
  const { line, words } = instructions[counter] ?? { line: 0, words: '' };
  return `${line}: ${words}`;
}

const WHY = { [STATUS.HALTED]: english('halted'), [STATUS.OUT_OF_RANGE]: english('no such cell') };
const WHERE = {
  [STATUS.HALTED]: english('halted in step {0}, {1}'),
  [STATUS.OUT_OF_RANGE]: english('no such cell in step {0}, {1}'),
};

// Why a processor has stopped, with what it executed last, where that is told.
function stopInWords(instructions, status, last) {
  if (!last) return phrase(WHY[status]);
  return phrase(WHERE[status], grouped(last.step),
    instructionInWords(instructions, { counter: last.index }));
}

function readsInWords(job, { reads, held }) {
  return reads === 0 ? '' : `${nameOfPlace(job, reads - 1)} (${held})`;
}

function writesInWords(job, { target, number, value }) {
  if (target === TARGET.NOTHING) return '';
  const place = target === TARGET.CELL ? nameOfPlace(job, number) : `r${number}`;
  return `${place} ← ${value}`;
}

function nextInWords(instructions, request) {
  if (request.next === request.counter + 1) return '';
  const line = instructions[request.next]?.line;
  return line === undefined ? phrase('its end') : phrase('line {0}', line);
}

// After the last step nothing is asked for any more.
function asksInWords(job, { isLast, status, ...request }) {
  if (isLast || status !== STATUS.RUNS) return ['', '', ''];
  return [readsInWords(job, request), writesInWords(job, request),
    nextInWords(job.program, request)];
}

function cellsOfRow(job, places, row, lastOf) {
  const { processor, counter, status } = row;
  const instruction = status === STATUS.RUNS
    ? instructionInWords(job.program, row) : stopInWords(job.program, status, lastOf(processor));
  return [...registersOf(job, places, processor), counter, instruction, ...asksInWords(job, row)];
}

export function openProcessors(onMove) {
  const sight = openWindow(PROCESSORS_IN_SIGHT, IN_SIGHT, onMove);
  const body = make('tbody');
  const head = make('tr', {},
    ...COLUMNS.map((name) => followText(make('th', { scope: 'col' }), name)));
  const table = make('table', { class: 'processors' },
    followText(make('caption', { class: 'unseen' }),
      english('Processors, and what each asks for in the next step')),
    make('thead', {}, head), body);
  byId('processors').append(sight.bar, make('div', { class: 'scroll' }, table));
  return {
    // `lasts` gives what each processor executed last, where that is told.
    show(job, places, requests, lasts) {
      const range = sight.range(job.procs);
      const lastOf = (processor) => lasts()?.[processor];
      fit(body, range.length, makeRow).forEach((row, k) => {
        const processor = range.first + k;
        const counter = places[counterPlace(job, processor)];
        const request = {
          processor, counter, isLast: requests.length === 0, ...requests[processor],
          status: statusOf(job, counter),
        };
        const texts = [`P${processor}`, ...cellsOfRow(job, places, request, lastOf)];
        [...row.children].forEach((cell, column) => setText(cell, String(texts[column])));
        setAttribute(row, 'class', request.status > STATUS.RUNS ? 'stopped' : '');
      });
    },
  };
}
