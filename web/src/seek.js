// Searches for a step of the plain machine, on or back.
import { STATUS, TARGET } from './kinds.js';

// A search from one step to another; each `look` looks at one step more, and tells whether there is
// more to do, of a far step with a promise. Then `isFound` says whether the step is one of which
// the requests are wanted.
export class Search {
  constructor(moments, from, to, isWanted) {
    Object.assign(this, { moments, to, isWanted, step: from, isFound: false });
  }

  look() {
    if (this.step === this.to) return false;
    const next = this.step + Math.sign(this.to - this.step);
    const judge = ({ list }) => {
      this.step = next;
      this.isFound = this.isWanted(list);
      return !this.isFound && next !== this.to;
    };
    return this.moments.hasKept(next) || this.moments.isNear(next)
      ? judge(this.moments.requests(next)) : this.moments.farRequests(next).then(judge);
  }

  // Looks at all of them that are near.
  finish() {
    while (this.look() === true);
    return this;
  }
}

// Whether a processor is about to read or write one of the first so many cells.
export const hasAccess = (cells) => (requests) => requests.some(({ reads, target, number }) =>
  (reads > 0 && reads <= cells) || (target === TARGET.CELL && number < cells));

// Whether a processor is about to do an instruction of one of these lines.
export const isAtLine = (program, lines) => (requests) => requests.some(({ status, counter }) =>
  status === STATUS.RUNS && lines.has(program[counter]?.line));
