// What the core tells of a whole run: what became of the processors, what it costs, what its steps
// do, when the lines of a program begin, and what each processor did last. It is kept; what takes
// long is made in the other thread.
import { CODE } from './declared.js';
import { LinePace } from './paces.js';

// A byte of a text takes as long as a step of a processor.
const NEAR = 50000;
export const STEPS_IN_SIGHT = 256;

export class Whole {
  // `onTold` is called when something was told that was asked for before.
  constructor(app, onTold) {
    Object.assign(this, { app, onTold });
    this.forget();
  }

  forget() {
    this.job = this.app.job;
    this.kept = new Map();
  }

  // What was told; nothing yet where it is made in the other thread, or waits for it.
  ask(name, wanted, steps) {
    const { core, far, job } = this.app;
    const { text } = job;
    if (this.job !== job) this.forget();
    const key = `${name} ${steps}`;
    if (this.kept.has(key)) return this.kept.get(key);
    if (steps * job.procs + text.length <= NEAR) return this.keep(key, core[name](text, ...wanted));
    if (!far.isFree) return undefined;
    far.ask(name, [text, ...wanted], (told) => {
      this.keep(key, told);
      this.onTold();
    });
    return undefined;
  }

  keep(key, told) {
    this.kept.set(key, told);
    return told;
  }

  // How many steps the run has, that of a conflict too; nothing where its answer is not told.
  get length() {
    const { code, step } = this.app.answer;
    return code === CODE.DONE || code === CODE.CONFLICT ? step : undefined;
  }

  // Of a run whose answer is told.
  fates() {
    return this.length === undefined ? undefined : this.ask('fates', [], this.length);
  }

  cost() {
    return this.length === undefined ? undefined : this.ask('cost', [], this.length);
  }

  // What the steps about this one do: the first of them, and a row each.
  stepsAbout(step) {
    const first = step - (step % STEPS_IN_SIGHT);
    const told = this.ask('steps', [first, STEPS_IN_SIGHT, this.app.most], first + STEPS_IN_SIGHT);
    return told && { first, list: told.list };
  }

  // What each processor did last, up to this step.
  lastAt(step) {
    const { job, most } = this.app;
    return this.ask('last', [{ procs: job.procs }, step, most], step)?.list;
  }

  // The run of a program line by line.
  lines() {
    const { length, app: { job, most, answer } } = this;
    if (length === undefined || !job.source) return undefined;
    const told = this.ask('starts', [length, most, job.source.starts], length);
    if (told && !told.pace) {
      const isConflict = answer.code === CODE.CONFLICT;
      const end = isConflict ? length - 1 : length;
      told.pace = new LinePace(told.list, job.program, end, isConflict);
    }
    return told?.pace;
  }
}
