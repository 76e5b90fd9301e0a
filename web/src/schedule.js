// A schedule: acts, one after the other, and the moment that is shown of them. Each change of the
// acts can be undone.
import { ACT, MOST_ACTS, bodyOf, kindOf } from './acts.js';
import { Events } from './events.js';
import { Film } from './film.js';

const MOST_CHANGES = 2000;
const NOTHING = new Uint32Array(0);

export class Schedule {
  constructor(workers, acts = [], at = acts.length) {
    Object.assign(this, { workers, acts, at, past: [], future: [] });
    this.events = new Events(this);
    this.film = new Film();
    this.revision = 0;
  }

  get length() {
    return this.acts.length;
  }

  get isAtEnd() {
    return this.at === this.acts.length;
  }

  get isFull() {
    return this.acts.length >= MOST_ACTS;
  }

  moveTo(moment) {
    this.at = Math.min(Math.max(moment, 0), this.acts.length);
  }

  // Has these acts from act number `from` on, of which the core told this, if it did; and says how
  // to have again what was there.
  swap({ workers, from, acts, at, told = NOTHING }) {
    const inverse = {
      workers: this.workers, from, acts: this.acts.slice(from), at: this.at,
      told: this.film.cut(from),
    };
    this.acts.length = from;
    for (const act of acts) this.acts.push(act);
    Object.assign(this, { workers, at, revision: this.revision + 1 });
    this.events.cut(from);
    if (this.film.length === from) this.film.add(told);
    return inverse;
  }

  // A change with the mark of the last one continues it, and is undone with it.
  change(workers, from, acts, { mark, told } = {}) {
    const at = from + acts.length;
    const inverse = this.swap({ workers, from, acts, at, told });
    const last = this.past.at(-1);
    this.future = [];
    if (mark && last?.mark === mark && inverse.acts.length === 0) return;
    this.past.push({ ...inverse, mark });
    if (this.past.length > MOST_CHANGES) this.past.shift();
  }

  // What comes next takes the place of what came after this moment. `how` has the mark, and what
  // the core told of the acts, where it did.
  add(acts, how) {
    const fitting = acts.slice(0, MOST_ACTS - this.at);
    if (fitting.length > 0) this.change(this.workers, this.at, fitting, how);
  }

  // Begins again, with so many workers.
  restart(workers) {
    if (this.length > 0 || workers !== this.workers) this.change(workers, 0, []);
  }

  undo() {
    if (this.past.length > 0) this.future.push(this.swap(this.past.pop()));
  }

  redo() {
    if (this.future.length > 0) this.past.push(this.swap(this.future.pop()));
  }

  // The workers of the bodies at this moment: first the workers, then each twin's.
  bodies() {
    const workers = Array.from({ length: this.workers }, (_, worker) => worker);
    for (const act of this.events.othersUpTo(this.at)) {
      if (kindOf(act) === ACT.TWIN) workers.push(bodyOf(act));
    }
    return workers;
  }

  // The bodies that sleep at this moment.
  sleepers() {
    const asleep = new Set();
    for (const act of this.events.othersUpTo(this.at)) {
      if (kindOf(act) === ACT.SLEEP) asleep.add(bodyOf(act));
      if (kindOf(act) === ACT.WAKE) asleep.delete(bodyOf(act));
    }
    return asleep;
  }
}
