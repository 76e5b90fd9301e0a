// The worst moments: from the present on each worker but one is lost, one after the other, at that
// moment with which those who are left make the most atomic steps in all, each in turn. A moment is
// tried by a run to the end: all of them, or as many as time and tries allow.
import { ACT, MOST_ACTS, actOf, bodyOf, kindOf } from './acts.js';
import { eventsOf, isAnswered, isOver, sceneAfter, toldOf } from './adversary_scene.js';
import { OP } from './declared.js';
import { countEvents } from './event_words.js';
import { joined } from './rounds.js';

export const MOST_TRIES = 2000;
export const MOST_SECONDS = 10;
const FIRST_ROOM = 1024;
const SPARE = 256;
const GOLDEN = (Math.sqrt(5) - 1) / 2;
// Of the tries for one loss such a part is for moments about the worst of the others.
const ABOUT = 0.25;

const divisor = (one, other) => (other === 0 ? one : divisor(other, one % other));

// The numbers below this one, each once, in an order in which the first ones are spread evenly.
function spreadOut(count) {
  let stride = Math.max(Math.round(count * GOLDEN), 1);
  while (divisor(count, stride) > 1) stride += 1;
  return Array.from({ length: count }, (_, k) => (k * stride) % count);
}

// The steps that were made, of turns with effects of these kinds.
function goesOf(kinds, bodies) {
  const goes = bodies.map((body) => actOf(ACT.GO, body));
  const made = [];
  kinds.forEach((kind, k) => {
    if (kind !== OP.OVER) made.push(goes[k % goes.length]);
  });
  return made;
}

const isStepOf = (bodies) => (act) => kindOf(act) === ACT.GO && bodies.includes(bodyOf(act));

export class WorstSearch {
  // `acts` are those up to the present moment, and `going` who goes on from there, in turn.
  constructor(core, asked) {
    const { acts, going } = asked;
    Object.assign(this, { core, asked, acts, going, losses: [], tries: 0, room: FIRST_ROOM });
    this.begin(this.finish(acts, going));
  }

  // The steps that these make in turn until each is over; nothing where a schedule is full first.
  finish(acts, bodies) {
    const events = eventsOf(acts);
    const most = MOST_ACTS - acts.length;
    for (;;) {
      const room = Math.min(this.room, most);
      const all = joined(events, bodies, room);
      const { bodies: rows, effects } = sceneAfter(this.core, this.asked, all, countEvents(events));
      if (bodies.every((body) => isOver(rows[body]))) {
        const made = goesOf(effects, bodies);
        this.room = made.length + SPARE;
        return made;
      }
      if (room === most) return undefined;
      this.room = 2 * room;
    }
  }

  // `tail` comes after the acts if nobody else is lost. Each loss has its share of tries and time.
  begin(tail) {
    this.isFull = tail === undefined;
    if (this.isFull) return;
    const losses = this.asked.going.length - 1;
    this.share = { tries: Math.floor(MOST_TRIES / losses), time: (1000 * MOST_SECONDS) / losses };
    const { tries, time } = this.share;
    const first = tail.length <= tries ? tries : Math.floor(tries * (1 - ABOUT));
    Object.assign(this, { tail, tried: new Map(), hasLookedAbout: false });
    this.left = spreadOut(tail.length).slice(0, first);
    this.end = performance.now() + time * (1 - ABOUT);
  }

  get worst() {
    return [...this.tried.values()].reduce((worst, one) => (one.steps > worst.steps ? one : worst));
  }

  // Loses the worker whose turn it is at a moment.
  lose(moment) {
    const { acts, asked, tail, going, tried } = this;
    const lost = bodyOf(tail[moment]);
    const at = going.indexOf(lost);
    const others = [...going.slice(at + 1), ...going.slice(0, at)];
    const head = [...acts, ...tail.slice(0, moment), actOf(ACT.LOSE, lost)];
    const rest = this.finish(head, others);
    if (rest === undefined) return;
    const before = head.slice(asked.acts.length).filter(isStepOf(others));
    this.tries += 1;
    tried.set(moment, { moment, lost, others, steps: before.length + rest.length });
  }

  // The moments about the worst so far are tried last, the nearest first.
  lookAbout() {
    const { tail, tried, share, worst: { moment } } = this;
    const most = Math.floor(share.tries * ABOUT);
    const first = Math.max(moment - most, 0);
    this.left = tail.map((_, k) => k).slice(first, moment + most).filter((k) => !tried.has(k))
      .sort((one, other) => Math.abs(one - moment) - Math.abs(other - moment)).slice(0, most);
    this.end += share.time * ABOUT;
    this.hasLookedAbout = true;
  }

  // The worst one is lost for good.
  settle() {
    const { acts, tail, tried, worst: { moment, lost, others, steps } } = this;
    const least = [...tried.values()].reduce((few, one) => Math.min(few, one.steps), Infinity);
    this.losses.push({
      lost, moment: acts.length + moment, most: steps, least,
      tried: tried.size, moments: tail.length,
    });
    const head = [...acts, ...tail.slice(0, moment), actOf(ACT.LOSE, lost)];
    Object.assign(this, { acts: head, going: others });
    this.begin(this.finish(head, others));
  }

  goOn() {
    const { left, tried, hasLookedAbout } = this;
    if (this.isFull || this.going.length < 2) return false;
    if (left.length > 0 && performance.now() < this.end) this.lose(left.shift());
    else if (tried.size === 0) this.isFull = true;
    else if (tried.size < this.tail.length && !hasLookedAbout) this.lookAbout();
    else this.settle();
    return true;
  }

  get progress() {
    return { tries: this.tries };
  }

  found() {
    const { core, asked, tries, losses, isFull } = this;
    if (isFull) return { tries, losses, isFull };
    const first = asked.acts.length;
    const acts = [...this.acts, ...this.tail];
    return {
      acts: acts.slice(first), told: toldOf(core, asked, acts, first), tries, losses, isFull,
      isSame: isAnswered(core, asked, eventsOf(acts)),
    };
  }
}
