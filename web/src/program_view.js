// A program by its lines: one mark in the text, the active processors lit, and their variables.
import { activeOf, statesAt } from './activity.js';
import { lineInWords } from './lockstep_words.js';
import { named } from './memory_boxes.js';
import { openProgramTable } from './program_table.js';
import { phrase } from './words.js';

export class ProgramView {
  constructor(app, onMove) {
    this.app = app;
    this.table = openProgramTable(onMove);
  }

  // What each processor is about in the line that is next.
  statesOf({ number, places }, pace) {
    return statesAt(this.app.job, places, pace.lineAt(number));
  }

  // The line that is next, with those that are active in it.
  marksOf(now, pace) {
    const line = pace.lineAt(now.number);
    if (line === undefined) return new Map();
    const active = activeOf(this.statesOf(now, pace));
    const badge = active.length > 0 ? named(active, 12) : phrase('nobody');
    return new Map([[line, { kind: now.fault ? 'clash next' : 'current next', badge }]]);
  }

  wordsOf(now, pace) {
    return lineInWords(this.app, {
      ...now,
      line: pace.lineAt(now.number),
      states: this.statesOf(now, pace),
      requests: now.asked.at(-1) ?? [],
    });
  }

  show(now, pace) {
    const { app } = this;
    this.table.show(app.job, now.places, this.statesOf(now, pace), () =>
      app.whole.lastAt(app.step));
  }
}
