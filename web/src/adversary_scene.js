// What the core tells an adversary after its acts.
import { bodyOf, isEvent, kindOf } from './acts.js';
import { areAlike } from './alike.js';
import { CODE } from './declared.js';
import { countEvents, firstEvents, putEvent, roomForEvents } from './event_words.js';
import { DOING } from './kinds.js';
import { spread } from './rounds.js';
import { offsetsOf, readElements, wordsOf } from './structs.js';

const ROW_WORDS = wordsOf('EventRow');
const { kind: KIND } = offsetsOf('EventRow');

export const isOver = ({ doing }) => doing === DOING.DONE || doing === DOING.CONFLICT;

// The core's events of acts.
export function eventsOf(acts) {
  const words = roomForEvents(acts.length);
  let count = 0;
  for (const act of acts) {
    if (!isEvent(act)) continue;
    putEvent(words, count, kindOf(act), bodyOf(act));
    count += 1;
  }
  return firstEvents(words, count);
}

// Of each event the kind of its atomic step.
function readKinds(memory, rows, count) {
  const kinds = new Uint8Array(count);
  for (let k = 0; k < count; k += 1) kinds[k] = memory[rows + k * ROW_WORDS + KIND];
  return kinds;
}

export const readWhole = (memory, rows, count) => readElements(memory, rows, 'EventRow', count);

// The scene after these events, and what those from `from` on did, which is read so; with the words
// of the board if it is wanted whole.
export function sceneAfter(core, asked, events, from, { readRows = readKinds, isWhole } = {}) {
  const { text, job, workers } = asked;
  const wanted = { from, places: job.places, cells: 0, readRows, isWhole };
  const scene = core.scene(text, workers, events, wanted);
  if (scene.code !== CODE.DONE) throw new RangeError(`the core tells no scene: ${scene.code}`);
  return scene;
}

// What the acts from number `first` on did, as the page keeps it of a schedule.
export function toldOf(core, { text, job, workers }, acts, first) {
  const from = countEvents(eventsOf(acts.slice(0, first)));
  const wanted = { from, places: job.places, cells: 0 };
  return spread(acts.slice(first), core.scene(text, workers, eventsOf(acts), wanted).effects);
}

// Whether the board then has the plain machine's answer; nothing where that is not known.
export function isAnswered(core, { text, job, workers, answer }, events) {
  return answer.code === CODE.TOO_FAR ? undefined
    : areAlike(core.outcome(text, job, workers, events), answer);
}
