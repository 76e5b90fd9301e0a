// All schedules of a small program: its states are met once each, by a search in depth, and what
// comes after a state is counted once. A state is what the words of the board hold and what each
// worker knows.
import { ACT, actOf, bodyOf, kindOf } from './acts.js';
import { eventsOf, isAnswered, isOver, sceneAfter } from './adversary_scene.js';
import { AtomicSteps } from './adversary_steps.js';
import { DOING } from './kinds.js';

export const MOST_STATES = 1000000;
const MOST_BYTES = 2 ** 28;
// Of each state besides its key.
const BYTES = 160;
// A key has so many values of a word apart.
const MOST_VALUES = 65536;
const LOST = -1;
const BYTE = 256;
const PIECE = 256;
// The worker that may be lost.
const LOSER = 1;

export class WholeSearch {
  constructor(core, asked) {
    const steps = new AtomicSteps(core, asked);
    Object.assign(this, { core, asked, steps, path: [], numbers: new Map(), frames: [] });
    // A state: words, and what each worker knows, which a key has in two parts.
    this.words = Uint16Array.from(steps.words);
    this.minds = [...steps.bodies];
    this.key = new Uint16Array(this.words.length + 2 * asked.workers);
    // By the number of a state: how many schedules come after it, the fewest and the most atomic
    // steps of them, and the act with which the most begin.
    Object.assign(this, { schedules: [], least: [], most: [], slowest: [] });
    Object.assign(this, { ends: 0, others: 0, isWhole: true });
    const size = 2 * this.key.length + BYTES;
    this.room = Math.min(MOST_STATES, Math.floor(MOST_BYTES / size));
    this.acts = this.minds.map((_, worker) => actOf(ACT.GO, worker));
    if (asked.isLosing && asked.workers > LOSER) this.acts.push(actOf(ACT.LOSE, LOSER));
    this.enter(this.keyNow());
  }

  // A state as a short text.
  keyNow() {
    const { key, words, minds } = this;
    key.set(words);
    minds.forEach((mind, worker) => {
      key[words.length + 2 * worker] = (mind + 1) % BYTE;
      key[words.length + 2 * worker + 1] = Math.floor((mind + 1) / BYTE);
    });
    return String.fromCharCode.apply(null, key);
  }

  isGoing(worker) {
    return this.minds[worker] !== LOST && this.steps.isGoing(this.minds[worker]);
  }

  // Makes an act, and tells how it is taken back.
  make(act) {
    const { words, minds, path } = this;
    const worker = bodyOf(act);
    const mind = minds[worker];
    if (kindOf(act) === ACT.LOSE) {
      minds[worker] = LOST;
      path.push(act);
      return { act, mind, word: 0, value: words[0] };
    }
    const next = this.steps.next(worker, mind, words, path);
    if (next.value >= MOST_VALUES) this.isWhole = false;
    const undo = { act, mind, word: next.word, value: words[next.word] };
    words[next.word] = next.value;
    minds[worker] = next.mind;
    path.push(act);
    return undo;
  }

  takeBack({ act, mind, word, value }) {
    this.words[word] = value;
    this.minds[bodyOf(act)] = mind;
    this.path.pop();
  }

  // A state that was not met before.
  enter(key, undo) {
    const number = this.numbers.size;
    this.numbers.set(key, number);
    const none = { schedules: 0n, least: Infinity, most: -1, slowest: -1 };
    this.frames.push({ number, undo, act: 0, ...none });
  }

  // The schedules that begin with this act are those of the state that it leads to.
  count(frame, act, number) {
    const cost = kindOf(act) === ACT.GO ? 1 : 0;
    frame.schedules += this.schedules[number];
    frame.least = Math.min(frame.least, cost + this.least[number]);
    if (cost + this.most[number] <= frame.most) return;
    frame.most = cost + this.most[number];
    frame.slowest = act;
  }

  // The core replays a schedule to this end: its board and its workers have to be those that were
  // put together, and its answer the plain machine's.
  judge() {
    const { core, asked, steps, words, minds, path } = this;
    const events = eventsOf(path);
    const { board, bodies } = sceneAfter(core, asked, events, path.length, { isWhole: true });
    const isSame = board.every((value, word) => steps.values[word].of(value) === words[word]) &&
      bodies.every((row, worker) => (minds[worker] === LOST ? row.doing === DOING.LOST
        : isOver(row)));
    this.ends += 1;
    if (!isSame || isAnswered(core, asked, events) === false) this.others += 1;
  }

  // All that comes after a state was met.
  leave(frame) {
    const { number, undo } = frame;
    if (frame.slowest < 0) {
      this.judge();
      Object.assign(frame, { schedules: 1n, least: 0, most: 0 });
    }
    this.schedules[number] = frame.schedules;
    this.least[number] = frame.least;
    this.most[number] = frame.most;
    this.slowest[number] = frame.slowest;
    this.frames.pop();
    if (!undo) return;
    this.takeBack(undo);
    this.count(this.frames.at(-1), undo.act, number);
  }

  // One state further, or one back.
  move() {
    const { acts, numbers } = this;
    const frame = this.frames.at(-1);
    while (frame.act < acts.length && !this.isGoing(bodyOf(acts[frame.act]))) frame.act += 1;
    if (frame.act === acts.length) {
      this.leave(frame);
      return;
    }
    const act = acts[frame.act];
    frame.act += 1;
    const undo = this.make(act);
    if (!this.isWhole) return;
    const key = this.keyNow();
    const number = numbers.get(key);
    if (number !== undefined) {
      this.takeBack(undo);
      this.count(frame, act, number);
    } else if (numbers.size < this.room) this.enter(key, undo);
    else this.isWhole = false;
  }

  goOn() {
    for (let k = 0; k < PIECE && this.frames.length > 0 && this.isWhole; k += 1) this.move();
    return this.frames.length > 0 && this.isWhole;
  }

  get progress() {
    return { states: this.numbers.size };
  }

  // The acts of the slowest schedule.
  slowestActs() {
    for (;;) {
      const act = this.slowest[this.numbers.get(this.keyNow())];
      if (act < 0) return this.path;
      this.make(act);
    }
  }

  found() {
    const { numbers, ends, others, isWhole, steps } = this;
    return {
      states: numbers.size, ends, others, isWhole, steps: steps.count,
      ...(isWhole && {
        schedules: this.schedules[0], least: this.least[0], most: this.most[0],
        acts: this.slowestActs(),
      }),
    };
  }
}
