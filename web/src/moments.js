// The moments of the plain machine, as the core tells them: the state after a step, and what the
// processors ask for in it. Those that were asked for last are kept, so that the one before is not
// asked for again. Far ones are asked for in another thread.
import { CODE } from './declared.js';
import { isNear } from './reading.js';

const MOST = 96;
const NOTHING = { list: [], code: CODE.DONE };

// What the core is told of a job's sizes.
const sizesOf = ({ cells, procs, places }) => ({ cells, procs, places });

export class Moments {
  // `onTold` is called when something far was told.
  constructor(app, onTold) {
    Object.assign(this, { app, onTold });
    this.forget();
  }

  forget() {
    this.text = this.app.job?.text;
    this.kept = new Map();
  }

  check() {
    if (this.text !== this.app.job.text) this.forget();
  }

  keep(step, told) {
    this.kept.delete(step);
    this.kept.set(step, told);
    if (this.kept.size > MOST) this.kept.delete(this.kept.keys().next().value);
    return told;
  }

  wantedFor(step) {
    const { job, most } = this.app;
    return [job.text, sizesOf(job), step, most];
  }

  moment(step) {
    this.check();
    return this.keep(step, this.kept.get(step) ?? this.app.core.moment(...this.wantedFor(step)));
  }

  // The last step whose state there is.
  get last() {
    const { code, step } = this.app.answer;
    if (code === CODE.DONE) return step;
    return code === CODE.CONFLICT ? step - 1 : this.app.most;
  }

  hasKept(step) {
    this.check();
    return this.kept.has(step);
  }

  state(step) {
    return this.moment(step).state;
  }

  hasRequests(step) {
    return step >= 0 && step < this.app.job.steps;
  }

  // What the processors ask for after so many steps; nothing after the last one.
  requests(step) {
    return this.hasRequests(step) ? this.moment(step).requests : NOTHING;
  }

  // The same of a far step, as a promise; what is asked for meanwhile is forgotten.
  farRequests(step) {
    if (!this.hasRequests(step) || this.app.isWaiting) return Promise.resolve(NOTHING);
    this.app.far.forget();
    return new Promise((done) => {
      this.app.far.ask('moment', this.wantedFor(step), (told) =>
        done(this.keep(step, told).requests));
    });
  }

  isNear(step) {
    const { text, procs } = this.app.job;
    return isNear(text, step * procs);
  }

  // Which moments are not kept of those that are shown at a step: it, and the one before.
  missingOf(step) {
    return [step, step - 1].filter((one) => one >= 0 && !this.kept.has(one));
  }

  // Whether the moment can be shown at once. A far one is asked for, with those beside it.
  isThere(step) {
    this.check();
    if (this.isNear(step)) return true;
    const missing = this.missingOf(step);
    const beside = [step + 1, step - 1].filter((one) => one <= this.last && !this.isNear(one));
    const [next] = [...missing, ...beside.flatMap((one) => this.missingOf(one))];
    if (next !== undefined && this.app.far.isFree) this.fetch(next);
    return missing.length === 0;
  }

  fetch(step) {
    this.app.far.ask('moment', this.wantedFor(step), (told) => {
      this.keep(step, told);
      this.onTold();
    });
  }
}
