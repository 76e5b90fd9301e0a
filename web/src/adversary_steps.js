// Atomic steps of workers, each told by the core once. What the next one of a worker does depends on
// what it knows (where it stands, what it is about, what it heard in its script so far), and on what
// the word holds that it touches. So many states are put together of few steps.
import { ACT, actOf } from './acts.js';
import { eventsOf, isOver, readWhole, sceneAfter } from './adversary_scene.js';
import { OP } from './declared.js';
import { DOING } from './kinds.js';

// So many steps of a worker are told at once.
const AHEAD = 48;

// Things by the numbers that they get, each when it is first met.
class Numbering {
  constructor() {
    this.numbers = new Map();
  }

  of(key) {
    if (!this.numbers.has(key)) this.numbers.set(key, this.numbers.size);
    return this.numbers.get(key);
  }
}

const isGoing = (row) => row.doing !== DOING.LOST && !isOver(row);

export class AtomicSteps {
  constructor(core, asked) {
    Object.assign(this, { core, asked, count: 0, minds: [] });
    this.numbering = new Numbering();
    const { board, bodies } = sceneAfter(core, asked, eventsOf([]), 0, { isWhole: true });
    this.values = board.map(() => new Numbering());
    this.words = board.map((value, word) => this.values[word].of(value));
    this.bodies = bodies.map((row) => this.mindOf(row, []));
  }

  // What a worker knows, as a number: its next steps are kept by what their word holds.
  mindOf({ worker, doing, node, phase, step, ...row }, heard) {
    const key = [worker, doing, node, phase, step, ...heard].join();
    const number = this.numbering.of(key);
    this.minds[number] ??= { isGoing: isGoing({ doing, ...row }), heard, word: 0, next: undefined };
    return number;
  }

  isGoing(mind) {
    return this.minds[mind].isGoing;
  }

  // What the next step of the worker with this mind does, after these acts: which word it touches,
  // what that then holds, and what the worker then knows.
  next(worker, mind, words, acts) {
    const { next, word } = this.minds[mind];
    return next?.[words[word]] ?? this.learn(worker, mind, words, acts);
  }

  // Has the core tell some steps of a worker, and tells the first.
  learn(worker, first, words, acts) {
    const goes = Array(AHEAD).fill(actOf(ACT.GO, worker));
    const events = eventsOf([...acts, ...goes]);
    const { effects } = sceneAfter(this.core, this.asked, events, acts.length,
      { readRows: readWhole });
    const made = effects.filter(({ kind }) => kind !== OP.OVER);
    made.reduce((number, row) => this.keep(number, row), first);
    const { next, word } = this.minds[first];
    return next[words[word]];
  }

  // Keeps what the step of a worker with this mind did, and tells the number of its next mind.
  keep(number, { word, before, after, now }) {
    const mind = this.minds[number];
    const values = this.values[word];
    const held = values.of(before);
    const then = this.mindOf(now, now.heard === 0 ? [] : [...mind.heard, before]);
    mind.word = word;
    mind.next ??= [];
    if (!mind.next[held]) {
      mind.next[held] = { word, value: values.of(after), mind: then };
      this.count += 1;
    }
    return then;
  }
}
