// Places of the machine: the cells, four registers of each processor, the counters.
import { LIMIT } from './declared.js';
import { STATUS } from './kinds.js';
import { phrase } from './words.js';

const { REGISTERS } = LIMIT;

// Of a program's job a cell has the name that it has there.
export function nameOfPlace(sizes, place) {
  const register = place - sizes.cells;
  if (register < 0) return sizes.source?.nameOfCell(place) ?? phrase('cell {0}', place);
  if (register < REGISTERS * sizes.procs) {
    return phrase('r{0} of processor {1}', register % REGISTERS, Math.floor(register / REGISTERS));
  }
  return phrase('the counter of processor {0}', register - REGISTERS * sizes.procs);
}

export const registerPlace = (sizes, processor, register) =>
  sizes.cells + REGISTERS * processor + register;

export const counterPlace = (sizes, processor) =>
  sizes.cells + REGISTERS * sizes.procs + processor;

// A counter is the index of an instruction, or one or two after the last one.
export function statusOf(sizes, counter) {
  if (counter < sizes.instructions) return STATUS.RUNS;
  return counter === sizes.instructions ? STATUS.HALTED : STATUS.OUT_OF_RANGE;
}

// The four registers and the counter of a processor, in a state.
export function registersOf(sizes, places, processor) {
  const first = registerPlace(sizes, processor, 0);
  return places.slice(first, first + REGISTERS);
}
