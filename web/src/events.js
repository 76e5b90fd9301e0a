// The core's events of a schedule. Those of the first acts are kept.
import { ACT, bodyOf, isEvent, kindOf } from './acts.js';
import { firstEvents, putEvent, roomForEvents } from './event_words.js';

export class Events {
  constructor(schedule) {
    this.schedule = schedule;
    this.words = roomForEvents(0);
    this.counts = new Uint32Array(1);
    this.known = 0;
    this.others = [];
  }

  cut(acts) {
    this.known = Math.min(this.known, acts);
    while (this.others.at(-1) >= acts) this.others.pop();
  }

  grow(acts) {
    if (acts < this.counts.length) return;
    const [words, counts] = [roomForEvents(2 * acts), new Uint32Array(2 * acts + 1)];
    words.set(this.words);
    counts.set(this.counts);
    Object.assign(this, { words, counts });
  }

  // How many of the first acts are events.
  countOf(moment) {
    const { acts } = this.schedule;
    this.grow(moment);
    for (; this.known < moment; this.known += 1) {
      const act = acts[this.known];
      if (kindOf(act) !== ACT.GO) this.others.push(this.known);
      const count = this.counts[this.known];
      if (isEvent(act)) putEvent(this.words, count, kindOf(act), bodyOf(act));
      this.counts[this.known + 1] = count + (isEvent(act) ? 1 : 0);
    }
    return this.counts[moment];
  }

  // Those of the first acts that are no steps of a body.
  othersUpTo(moment) {
    this.countOf(moment);
    const { acts } = this.schedule;
    return this.others.filter((k) => k < moment).map((k) => acts[k]);
  }

  // Those of the first acts.
  upTo(moment) {
    const count = this.countOf(moment);
    return firstEvents(this.words, count);
  }
}
