// A random schedule: who makes steps, sleeps, wakes, is lost and comes back, drawn by lot. The core
// tells when a worker is over. One is always awake until then, so that the job ends.
import { ACT, MOST_ACTS, actOf, bodyOf, isEvent, kindOf } from './acts.js';
import { eventsOf, isAnswered, isOver, readWhole, sceneAfter, toldOf } from './adversary_scene.js';
import { Draw } from './draw.js';

// How many steps a worker makes in a row at most, how often the lot falls on one in about as many
// steps as one worker alone would make, and the chances that then one who is awake is lost and does
// not sleep, one who sleeps wakes, and one who is lost comes back.
const MEANNESS = {
  kind: { row: 3, mishaps: 12, loss: 0, wakes: 1, returns: 1 },
  mean: { row: 16, mishaps: 30, loss: 0.5, wakes: 0.7, returns: 0.7 },
  cruel: { row: 80, mishaps: 60, loss: 0.6, wakes: 0.2, returns: 0.3 },
};
const ALONE = 70;
const MOST_CHANCE = 0.25;
const LEAST_PIECE = 256;

// Who is awake, asleep, lost and over.
class Crew {
  constructor(states) {
    this.states = states;
  }

  all(state) {
    return this.states.flatMap((one, worker) => (one === state ? [worker] : []));
  }

  // After this act.
  take(act) {
    const after = {
      [ACT.LOSE]: 'lost', [ACT.BACK]: 'awake', [ACT.SLEEP]: 'asleep', [ACT.WAKE]: 'awake',
    };
    this.states[bodyOf(act)] = after[kindOf(act)] ?? this.states[bodyOf(act)];
  }

  copy() {
    return new Crew([...this.states]);
  }
}

// What befalls a worker that the lot falls on. The last one awake never sleeps, and comes back at
// once.
function mishapOf(crew, draw, worker, { loss, wakes, returns }) {
  const isLast = crew.all('awake').length === 1;
  switch (crew.states[worker]) {
    case 'asleep': return draw.isWithin(wakes) ? [ACT.WAKE] : [];
    case 'lost': return draw.isWithin(returns) ? [ACT.BACK] : [];
    default:
      if (draw.isWithin(loss)) return isLast ? [ACT.LOSE, ACT.BACK] : [ACT.LOSE];
      return isLast ? [] : [ACT.SLEEP];
  }
}

// The acts of one turn.
function turnOf(crew, draw, meanness, chance) {
  if (draw.isWithin(chance)) {
    const worker = draw.oneOf(crew.states.flatMap((state, k) => (state === 'over' ? [] : [k])));
    return mishapOf(crew, draw, worker, meanness).map((kind) => actOf(kind, worker));
  }
  const worker = draw.oneOf(crew.all('awake'));
  return Array(1 + draw.below(meanness.row)).fill(actOf(ACT.GO, worker));
}

// Some acts more, as if nobody came to its end in them.
function draftOf(crew, draw, meanness, chance, most) {
  const acts = [];
  const then = crew.copy();
  while (acts.length < most) {
    for (const act of turnOf(then, draw, meanness, chance)) {
      acts.push(act);
      then.take(act);
    }
  }
  return acts.slice(0, most);
}

export class RandomSearch {
  constructor(core, asked) {
    const { job, workers, seed, meanness } = asked;
    Object.assign(this, { core, asked, meanness: MEANNESS[meanness] });
    this.draw = new Draw(seed);
    this.crew = new Crew(Array(workers).fill('awake'));
    this.acts = [];
    const turns = (ALONE * job.procs * job.steps) / (this.meanness.row / 2);
    this.chance = Math.min(this.meanness.mishaps / turns, MOST_CHANCE);
  }

  get isFull() {
    return this.acts.length + this.asked.workers > MOST_ACTS;
  }

  // The acts up to the one with which a worker is over, all of them if none is; and that worker.
  cut(draft) {
    const before = this.acts.filter(isEvent).length;
    const events = eventsOf([...this.acts, ...draft]);
    const { effects: rows } = sceneAfter(this.core, this.asked, events, before,
      { readRows: readWhole });
    const last = rows.findIndex(({ now }) => isOver(now));
    if (last < 0) return { taken: draft };
    let seen = -1;
    const end = draft.findIndex((act) => {
      if (isEvent(act)) seen += 1;
      return seen === last;
    });
    return { taken: draft.slice(0, end + 1), over: rows[last].body };
  }

  add(acts) {
    for (const act of acts) {
      this.acts.push(act);
      this.crew.take(act);
    }
  }

  // Goes on by some acts; tells whether there is more to do. Who still sleeps when the others are
  // over wakes then.
  goOn() {
    const { crew, acts } = this;
    if (this.isFull) return false;
    if (crew.all('awake').length === 0) this.add(crew.all('asleep').map((k) => actOf(ACT.WAKE, k)));
    if (crew.all('awake').length === 0) return false;
    const most = Math.min(Math.max(LEAST_PIECE, acts.length >> 3), MOST_ACTS - acts.length);
    const draft = draftOf(crew, this.draw, this.meanness, this.chance, most);
    const { taken, over } = this.cut(draft);
    this.add(taken);
    if (over !== undefined) crew.states[over] = 'over';
    return true;
  }

  get progress() {
    return { acts: this.acts.length };
  }

  found() {
    const { core, asked, acts, isFull } = this;
    const count = (kind) => acts.filter((act) => kindOf(act) === kind).length;
    return {
      acts, told: toldOf(core, asked, acts, 0), isFull,
      isSame: isAnswered(core, asked, eventsOf(acts)),
      steps: count(ACT.GO), losses: count(ACT.LOSE), returns: count(ACT.BACK),
      sleeps: count(ACT.SLEEP),
    };
  }
}
