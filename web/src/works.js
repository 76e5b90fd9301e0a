// The programs one after the other, as they were written or chosen, each with its schedule and its
// step: going back to one has all of it again.
const MOST_WORKS = 300;
const MOST_CHARACTERS = 32000000;

let numbers = 0;

// `draft` is the own program whose text it is; nothing of one that was chosen or came by a link.
// `name` gives what the menu calls one of neither kind, `lesson` the stop or exercise that shows it.
export function makeWork(text, schedule, more = {}) {
  numbers += 1;
  return { number: numbers, text, schedule, step: 0, draft: undefined, ...more };
}

export class Works {
  constructor(first) {
    this.list = [first];
    this.at = 0;
    this.all = new Map([[first.number, first]]);
  }

  get now() {
    return this.list[this.at];
  }

  get canUndo() {
    return this.at > 0;
  }

  get canRedo() {
    return this.at < this.list.length - 1;
  }

  add(work) {
    this.list.splice(this.at + 1, Infinity, work);
    this.all.set(work.number, work);
    this.at = this.list.length - 1;
    this.forget();
  }

  forget() {
    let characters = this.list.reduce((sum, work) => sum + work.text.length, 0);
    while (this.at > 0 && (this.list.length > MOST_WORKS || characters > MOST_CHARACTERS)) {
      const { number, text } = this.list.shift();
      characters -= text.length;
      this.all.delete(number);
      this.at -= 1;
    }
  }

  // Has a draft's works go by its other number.
  renumber(draft, number) {
    for (const work of this.all.values()) if (work.draft === draft) work.draft = number;
  }

  moveBy(count) {
    this.at = Math.min(Math.max(this.at + count, 0), this.list.length - 1);
  }

  // Shows again the one of this number; tells whether there is one.
  show(number) {
    const work = this.all.get(number);
    const at = this.list.indexOf(work);
    if (at >= 0) this.at = at;
    else if (work) this.add(work);
    return work !== undefined;
  }
}
