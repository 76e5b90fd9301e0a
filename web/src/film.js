// What the core told of each act of a schedule. It is kept so that lists, searches and drawings of
// any moment need no further call.
import { FORM } from './declared.js';
import { WIDTH, effectOf, findEffect, isChangeOf } from './effects.js';
import { isLastPass } from './phases.js';

const FIRST_ROOM = 1024;
const ROOT = 1;

const isRoot = isChangeOf(FORM.NODE, ROOT);

// A step of the machine is finished when the root is marked with its last pass.
export const isFinish = (effects, k) =>
  isRoot(effects, k) && isLastPass(effectOf(effects, k).after);

export class Film {
  constructor() {
    this.store = new Uint32Array(WIDTH * FIRST_ROOM);
    this.length = 0;
    this.changes = { place: -1, known: 0, found: [] };
  }

  // Forgets the acts from this one on, and gives what was told of them.
  cut(length) {
    const told = this.store.slice(length * WIDTH, this.length * WIDTH);
    this.length = Math.min(this.length, length);
    this.changes.place = -1;
    return told;
  }

  // What was told of the next acts; zeros where one was no event.
  add(effects) {
    const end = this.length * WIDTH + effects.length;
    if (end > this.store.length) {
      const larger = new Uint32Array(2 * end);
      larger.set(this.store);
      this.store = larger;
    }
    this.store.set(effects, this.length * WIDTH);
    this.length = end / WIDTH;
  }

  effectOf(act) {
    return effectOf(this.store, act);
  }

  find(first, end, isWanted) {
    return findEffect(this.store, first, end, isWanted);
  }

  // The acts before `end` that changed a word of this place, with their effects.
  changesOf(place, end) {
    if (this.changes.place !== place) this.changes = { place, known: 0, found: [] };
    const { known, found } = this.changes;
    const isWanted = isChangeOf(FORM.STORED, place);
    for (let act = this.find(known, this.length, isWanted); act >= 0;) {
      found.push({ ...this.effectOf(act), moment: act + 1 });
      act = this.find(act + 1, this.length, isWanted);
    }
    this.changes.known = this.length;
    return found.filter(({ moment }) => moment <= end);
  }
}
