// The board at the moment of the schedule, as the core tells it, with one call a moment. Workers
// go on by rounds, in which each that is going makes a step in turn.
import { ACT, MOST_ACTS, bodyOf, kindOf } from './acts.js';
import { CODE } from './declared.js';
import { findEffect } from './effects.js';
import { countEvents } from './event_words.js';
import { joined, madeOf, spread } from './rounds.js';
import { isGoing } from './worker_cards.js';

// So many acts are told by one call; of new ones early in a schedule fewer, since what comes before
// them takes no time there.
const MOST_STEPS = 60000;
const FIRST_STEPS = 20000;
const isSame = (some, others) => some.every((part, k) => part === others[k]);
const NO_STEP = { count: 0, isFound: false };

export class Board {
  constructor(app) {
    this.app = app;
    this.place = 0;
    this.shown = undefined;
  }

  get schedule() {
    return this.app.schedule;
  }

  // The events up to the moment.
  get events() {
    return this.schedule.events.upTo(this.schedule.at);
  }

  // The scene after these events, with the effects of those from `from` on, and all cells or none.
  ask(events, from, cells = this.app.job.cells) {
    const { core, job } = this.app;
    const wanted = { from, places: job.places, place: this.place, cells };
    return core.scene(job.text, this.schedule.workers, events, wanted);
  }

  // What is told of a moment depends on this; the words of a place on the place, too.
  get moment() {
    const { schedule } = this;
    return [this.app.job.text, schedule, schedule.revision, schedule.at];
  }

  isShown() {
    return this.shown !== undefined && isSame(this.shown.moment, [...this.moment, this.place]);
  }

  keep(scene) {
    this.shown = { scene, moment: [...this.moment, this.place] };
    return scene;
  }

  // Has the film of the whole schedule, some thousand acts a call, and tells the last scene.
  fill() {
    const { acts, film, events } = this.schedule;
    let scene;
    while (film.length < acts.length) {
      const end = Math.min(film.length + MOST_STEPS, acts.length);
      const cells = end === acts.length ? undefined : 0;
      scene = this.ask(events.upTo(end), events.countOf(film.length), cells);
      if (scene.code !== CODE.DONE) return scene;
      film.add(spread(acts.slice(film.length, end), scene.effects));
    }
    return scene;
  }

  // The scene at the moment of the schedule.
  now() {
    if (this.isShown()) return this.shown.scene;
    const filled = this.fill();
    if (filled && (this.schedule.isAtEnd || filled.code !== CODE.DONE)) return this.keep(filled);
    return this.keep(this.ask(this.events, countEvents(this.events)));
  }

  // What the board answers at the moment.
  outcome() {
    const { moment } = this;
    if (this.end === undefined || !isSame(this.end.moment, moment)) {
      const { core, job } = this.app;
      const told = core.outcome(job.text, job, this.schedule.workers, this.events);
      this.end = { moment, told };
    }
    return this.end.told;
  }

  // Those that are neither asleep, lost nor over.
  going() {
    const sleepers = this.schedule.sleepers();
    return (this.now().bodies ?? []).flatMap((row, body) =>
      (isGoing(row) && !sleepers.has(body) ? [body] : []));
  }

  // So many steps of these, who take turns, without those that the core says were none; up to the
  // first one that is wanted, if `isWanted` is given. Tells how many were made, and whether the
  // wanted one was.
  step(bodies, { most = bodies.length, mark, isWanted } = {}) {
    const { schedule, events } = this;
    const scene = this.ask(joined(events, bodies, most), countEvents(events));
    if (scene.code !== CODE.DONE) return NO_STEP;
    const { effects } = scene;
    const found = isWanted ? findEffect(effects, 0, most, isWanted) : -1;
    const count = found < 0 ? most : found + 1;
    const { acts, told } = madeOf(bodies, count, effects);
    schedule.add(acts, { mark, told });
    if (count === most) this.keep(scene);
    return { count: acts.length, isFound: found >= 0 };
  }

  // So many rounds of these bodies, as many as one call makes.
  goRounds(count, mark, bodies = this.going(), isWanted = undefined) {
    const { at } = this.schedule;
    const most = Math.min(bodies.length * count, MOST_ACTS - at, MOST_STEPS, FIRST_STEPS + at);
    return most === 0 ? NO_STEP : this.step(bodies, { most, mark, isWanted });
  }

  // Those that are going, from the one after the body that made the last step.
  goingInTurn() {
    const { acts, at } = this.schedule;
    let last = at - 1;
    while (last >= 0 && kindOf(acts[last]) !== ACT.GO) last -= 1;
    const going = this.going();
    const next = last < 0 ? 0 : going.findIndex((body) => body > bodyOf(acts[last]));
    return next <= 0 ? going : [...going.slice(next), ...going.slice(0, next)];
  }

  // Goes on in the schedule to just after the next effect that is wanted, or to its end; tells
  // whether there is one.
  seekInSchedule(isWanted) {
    const { schedule } = this;
    this.now();
    const found = schedule.film.find(schedule.at, schedule.length, isWanted);
    schedule.moveTo(found < 0 ? schedule.length : found + 1);
    return found >= 0;
  }
}
