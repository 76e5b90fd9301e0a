// Rounds, in which bodies make an atomic step in turn; and what acts did.
import { ACT, actOf, isEvent } from './acts.js';
import { WIDTH, isStep } from './effects.js';
import { countEvents, putEvent, roomForEvents } from './event_words.js';

// The events, and after them a step of each of so many bodies, which take turns.
export function joined(events, bodies, count) {
  const first = countEvents(events);
  const all = roomForEvents(first + count);
  all.set(events);
  for (let k = 0; k < count; k += 1) putEvent(all, first + k, ACT.GO, bodies[k % bodies.length]);
  return all;
}

// Of the first turns those in which a step was made, as acts, with the effects of those alone.
export function madeOf(bodies, count, effects) {
  const acts = [];
  for (let k = 0; k < count; k += 1) {
    if (!isStep(effects, k)) continue;
    const to = acts.push(actOf(ACT.GO, bodies[k % bodies.length])) - 1;
    if (to < k) effects.copyWithin(to * WIDTH, k * WIDTH, (k + 1) * WIDTH);
  }
  return { acts, told: effects.subarray(0, acts.length * WIDTH) };
}

// The effects of acts, with zeros for those that are no events.
export function spread(acts, effects) {
  if (effects.length === acts.length * WIDTH) return effects;
  const told = new Uint32Array(acts.length * WIDTH);
  let from = 0;
  acts.forEach((act, k) => {
    if (!isEvent(act)) return;
    told.set(effects.subarray(from, from + WIDTH), k * WIDTH);
    from += WIDTH;
  });
  return told;
}
