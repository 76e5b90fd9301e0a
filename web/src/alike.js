// Whether a board answers what the plain machine does.
import { CODE } from './declared.js';

const sameCells = (some, others) =>
  some.length === others.length && some.every((value, cell) => value === others[cell]);

const sameConflict = (some, other) =>
  ['step', 'cell', 'first', 'second'].every((name) => some[name] === other[name]);

export function areAlike(outcome, answer) {
  if (outcome.code !== answer.code) return false;
  return outcome.code === CODE.DONE
    ? sameCells(outcome.cells, answer.cells) : sameConflict(outcome, answer);
}
