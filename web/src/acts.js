// Acts: what happens to which worker. The core gets them as its events; sleep and waking are the
// page's own, since a sleeping worker is one that makes no step.
import { EVENT } from './declared.js';
import { TWIN } from './kinds.js';
import { phrase } from './words.js';

export const ACT = {
  GO: EVENT.GO, LOSE: EVENT.STOP, BACK: EVENT.BACK, TWIN, SLEEP: TWIN + 1, WAKE: TWIN + 2,
};

export const MOST_WORKERS = 8;
export const MOST_BODIES = 16;
export const MOST_ACTS = 400000;

// An act is one number: its kind, and the body (of a twin: the worker).
export const actOf = (kind, body) => kind * 32 + body;
export const kindOf = (act) => act >> 5;
export const bodyOf = (act) => act & 31;
export const isEvent = (act) => kindOf(act) <= ACT.TWIN;

const LETTERS = {
  [ACT.GO]: '', [ACT.LOSE]: 'l', [ACT.BACK]: 'b', [ACT.TWIN]: 't', [ACT.SLEEP]: 's',
  [ACT.WAKE]: 'w',
};
const KINDS = Object.fromEntries(
  Object.entries(LETTERS).map(([kind, letter]) => [letter, Number(kind)]));

function isRepeated(acts, start, period, at) {
  return at < acts.length && acts[at] === acts[start + ((at - start) % period)];
}

// The piece of acts from `start` on that is best said as a repetition.
function bestRun(acts, start) {
  let best = { period: 1, times: 1 };
  for (let period = 1; period <= MOST_BODIES; period += 1) {
    let end = start + period;
    if (end > acts.length) break;
    while (isRepeated(acts, start, period, end)) end += 1;
    const times = Math.floor((end - start) / period);
    if (times > 1 && times * period > best.times * best.period) best = { period, times };
  }
  return best;
}

// 0, 1, 2, 0, 1, 2, lose 1 is written 0.1.2*2~l1. Nothing is written where it is too long.
export function writeActs(acts, most = Infinity) {
  const runs = [];
  let single = false;
  let length = 0;
  for (let start = 0; start < acts.length; ) {
    const { period, times } = bestRun(acts, start);
    const piece = acts.slice(start, start + period);
    const words = piece.map((act) => LETTERS[kindOf(act)] + bodyOf(act)).join('.');
    length += words.length;
    if (length > most) return undefined;
    if (times === 1 && single) runs[runs.length - 1] += `.${words}`;
    else runs.push(times > 1 ? `${words}*${times}` : words);
    single = times === 1;
    start += period * times;
  }
  return runs.join('~');
}

function readAct(word) {
  const [, letter, digits] = /^([lbtsw]?)(\d{1,2})$/.exec(word) ?? [];
  if (digits === undefined) throw new RangeError(phrase('an act of a schedule is unknown'));
  return actOf(KINDS[letter], Number(digits));
}

// Each act must be about a body that there is.
function checkActs(workers, acts) {
  let bodies = workers;
  for (const act of acts) {
    const isTwin = kindOf(act) === ACT.TWIN;
    if (bodyOf(act) >= (isTwin ? workers : bodies)) {
      throw new RangeError(phrase('no such worker'));
    }
    if (isTwin) bodies += 1;
    if (bodies > MOST_BODIES) throw new RangeError(phrase('too many twins'));
  }
}

// Reads what writeActs wrote. Throws a RangeError at anything else.
export function readActs(workers, text) {
  const acts = [];
  for (const run of text === '' ? [] : text.split('~')) {
    const [, words, times] = /^([^*]+)(?:\*(\d{1,6}))?$/.exec(run) ?? [];
    if (words === undefined) throw new RangeError(phrase('a schedule is not written so'));
    const piece = words.split('.').map(readAct);
    const count = Number(times ?? 1);
    if (acts.length + piece.length * count > MOST_ACTS) {
      throw new RangeError(phrase('too many acts'));
    }
    for (let k = 0; k < count; k += 1) for (const act of piece) acts.push(act);
  }
  checkActs(workers, acts);
  return acts;
}
