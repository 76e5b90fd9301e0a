// How one goes through a run: by the steps of the machine, or by the lines of a program. Each has
// numbers from 0 to `last`, and a step of the machine for each number.

export class MachinePace {
  constructor(moments) {
    this.moments = moments;
  }

  get last() {
    return this.moments.last;
  }

  numberAt(step) {
    return Math.max(0, Math.min(step, this.last));
  }

  stepAt(number) {
    return number;
  }

  // The steps that one goes through next: of each, after how many it comes.
  spanAt(number) {
    return [number];
  }
}

// A number says how many lines are done.
export class LinePace {
  // `starts` has after how many steps which instruction is next, one pair after the other; the
  // run ends after `end` steps, or the step after them is against the rule.
  constructor(starts, program, end, isConflict) {
    const numbers = Array.from({ length: starts.length / 2 }, (_, k) => k);
    this.steps = numbers.map((k) => starts[2 * k]);
    this.lines = numbers.map((k) => program[starts[2 * k + 1]].line);
    this.end = end;
    if (isConflict) return;
    this.steps.push(end);
    this.lines.push(undefined);
  }

  get last() {
    return this.steps.length - 1;
  }

  numberAt(step) {
    let [low, high] = [0, this.last];
    while (low < high) {
      const middle = Math.ceil((low + high) / 2);
      if (this.steps[middle] <= step) low = middle;
      else high = middle - 1;
    }
    return low;
  }

  stepAt(number) {
    return this.steps[number];
  }

  // The line that is next; none at the end.
  lineAt(number) {
    return this.lines[number];
  }

  spanAt(number) {
    if (number < 0 || this.lines[number] === undefined) return [];
    const from = this.steps[number];
    const to = this.steps[number + 1] ?? this.end + 1;
    return Array.from({ length: to - from }, (_, k) => from + k);
  }

  // The first number after this one, up to another, at which a line is next that is wanted.
  find(number, isWanted, to = this.last) {
    for (let at = number + 1; at <= to; at += 1) if (isWanted(this.lines[at])) return at;
    return undefined;
  }
}
