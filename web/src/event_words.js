// Events as the core takes them: the words of one after those of another.
import { offsetsOf, wordsOf } from './structs.js';

const WORDS = wordsOf('Event');
const AT = offsetsOf('Event');

export const roomForEvents = (count) => new Uint32Array(count * WORDS);

export function putEvent(events, k, kind, body) {
  events[k * WORDS + AT.kind] = kind;
  events[k * WORDS + AT.body] = body;
}

export const countEvents = (events) => events.length / WORDS;
export const firstEvents = (events, count) => events.subarray(0, count * WORDS);
export const kindOfEvent = (events, k) => events[k * WORDS + AT.kind];
