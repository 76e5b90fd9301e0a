// Effects of events in few numbers each: what an event did to which word, as the core told it.
import { OP } from './declared.js';
import { offsetsOf } from './structs.js';

export const WIDTH = 8;
const ROW = offsetsOf('EventRow');
const IS_CHANGE = 1 << 12;
const IS_EVENT = 1 << 13;
const KIND = 7;
const FORM_AT = 3;

// The small numbers of an effect are one: kind, form, part, older, event, and whether a word
// changed. `told` is a row of the core's, in words of 32 bits from `at` on. A word of the board is
// two: its payload, and then its stamp.
export function packEffect(told, at, into, to) {
  const [before, after] = [at + ROW.before, at + ROW.after];
  const isChange = told[before] !== told[after] || told[before + 1] !== told[after + 1];
  into[to] = IS_EVENT | told[at + ROW.kind] | (told[at + ROW.form] << FORM_AT) |
    (told[at + ROW.part] << 6) | (told[at + ROW.older] << 8) | (told[at + ROW.event] << 9) |
    (isChange ? IS_CHANGE : 0);
  into[to + 1] = told[at + ROW.word];
  into[to + 2] = told[at + ROW.which];
  into[to + 3] = told[before];
  into[to + 4] = told[before + 1];
  into[to + 5] = told[after];
  into[to + 6] = told[after + 1];
  into[to + 7] = told[at + ROW.body];
}

const wide = (payload, stamp) => payload + stamp * 2 ** 32;

// Effect number k; nothing where no event was. A whole word is exact as a number where it is no
// stamped one: phases are below 2^53.
export function effectOf(effects, k) {
  const [bits, word, which, beforePayload, beforeStamp, afterPayload, afterStamp, body] =
    effects.subarray(k * WIDTH, (k + 1) * WIDTH);
  if ((bits & IS_EVENT) === 0) return undefined;
  return {
    kind: bits & KIND,
    form: (bits >> FORM_AT) & 7,
    part: (bits >> 6) & 3,
    older: (bits >> 8) & 1,
    event: (bits >> 9) & 7,
    isChange: (bits & IS_CHANGE) !== 0,
    word, which, body, beforePayload, beforeStamp, afterPayload, afterStamp,
    before: wide(beforePayload, beforeStamp),
    after: wide(afterPayload, afterStamp),
  };
}

export const isStep = (effects, k) => (effects[k * WIDTH] & KIND) !== OP.OVER;
export const isChange = (effects, k) => (effects[k * WIDTH] & IS_CHANGE) !== 0;

// Whether an event changed a word of this form with this number (of a node, a place, ..).
export const isChangeOf = (form, which) => (effects, k) => isChange(effects, k) &&
  ((effects[k * WIDTH] >> FORM_AT) & 7) === form && effects[k * WIDTH + 2] === which;

// The first effect from `first` on, before `end`, that is wanted; -1 if there is none.
export function findEffect(effects, first, end, isWanted) {
  for (let k = first; k < end; k += 1) if (isWanted(effects, k)) return k;
  return -1;
}
