// Program, workers and schedule in the address, after `#`, so that a link carries a
// demonstration. What comes from an address is never trusted: it is read within limits or refused.
import { MOST_WORKERS, readActs, writeActs } from './acts.js';
import { LIMIT } from './declared.js';
import { pack, unpack } from './packing.js';
import { Schedule } from './schedule.js';
import { phrase } from './words.js';

const MOST_ADDRESS = 60000;
const MOST_TEXT = LIMIT.TEXT_MOST;

const packText = (text) => pack(new TextEncoder().encode(text), MOST_TEXT);

async function unpackText(packed) {
  return new TextDecoder('utf-8', { fatal: true }).decode(await unpack(packed, MOST_TEXT));
}

const exampleOf = ({ text }, examples) => examples.find((candidate) => candidate.text === text);

// The exercise of one's own that is shown.
const exerciseOf = ({ lesson }) => lesson?.text;

// What an address says besides texts, or nothing where the acts would be too long.
function writeMoment({ view, step, schedule, lesson }, most) {
  const { workers, acts, at } = schedule;
  const parts = [`view=${view}`, `step=${step}`, `workers=${workers}`];
  const written = writeActs(acts, most);
  if (written === undefined) return undefined;
  if (acts.length > 0) parts.push(`acts=${written}`, `at=${at}`);
  if (lesson && lesson.text === undefined) parts.push(`${lesson.kind}=${lesson.name}`);
  return parts.join('&');
}

// The part after `#`, or nothing where it would be too long for a link.
export async function writeAddress(shown, examples) {
  const example = exampleOf(shown, examples);
  const length = (example ? 0 : shown.text.length) + (exerciseOf(shown)?.length ?? 0);
  if (length > 20 * MOST_ADDRESS) return undefined;
  const moment = writeMoment(shown, MOST_ADDRESS);
  if (moment === undefined) return undefined;
  const text = example ? `example=${example.name}` : `text=${await packText(shown.text)}`;
  const own = exerciseOf(shown);
  const exercise = own === undefined ? '' : `&own=${await packText(own)}`;
  const address = `${text}&${moment}${exercise}`;
  return address.length > MOST_ADDRESS ? undefined : address;
}

// What is shown, at once and of any length, for the page itself: the text stands beside the rest,
// and of an example its name; and an exercise of one's own.
export function writeShown(shown, examples) {
  const example = exampleOf(shown, examples);
  const moment = writeMoment(shown);
  const own = exerciseOf(shown);
  return example ? { address: `example=${example.name}&${moment}`, own }
    : { address: moment, text: shown.text, own };
}

function readNumber(fields, name, least, most, otherwise) {
  const digits = fields.get(name);
  if (digits === null) return otherwise;
  const number = /^\d{1,10}$/.test(digits) ? Number(digits) : NaN;
  if (!(number >= least && number <= most)) {
    throw new RangeError(phrase('{0} is out of its limits', name));
  }
  return number;
}

const LESSONS = ['exercise', 'puzzle', 'tour'];

const lessonWith = (own) => ({ kind: 'exercise', text: own });

// The lesson whose panel is open, by its kind and its name; an exercise of one's own by its text.
async function readLesson(fields) {
  const own = fields.get('own');
  if (own !== null) return lessonWith(await unpackText(own));
  const kind = LESSONS.find((one) => fields.has(one));
  return kind && { kind, name: fields.get(kind) };
}

async function readText(fields, examples) {
  const name = fields.get('example');
  const packed = fields.get('text');
  if (packed !== null) return unpackText(packed);
  if (name === null) return undefined;
  const example = examples.find((candidate) => candidate.name === name);
  if (!example) throw new RangeError(phrase('there is no such example'));
  return example.text;
}

// What an address shows; nothing where it is empty. Throws where it can't be read.
export async function readAddress(address, examples) {
  if (address === '') return undefined;
  const fields = new URLSearchParams(address);
  const text = await readText(fields, examples);
  const workers = readNumber(fields, 'workers', 1, MOST_WORKERS, undefined);
  const acts = readActs(workers ?? 1, fields.get('acts') ?? '');
  const at = readNumber(fields, 'at', 0, acts.length, acts.length);
  return {
    text,
    view: fields.get('view') === 'workers' ? 'workers' : 'lockstep',
    step: readNumber(fields, 'step', 0, 4294967295, 0),
    lesson: await readLesson(fields),
    schedule: workers === undefined ? undefined : new Schedule(workers, acts, at),
  };
}

// What writeShown wrote. Throws at anything else.
export async function readShown({ address, text, own }, examples) {
  const shown = await readAddress(address, examples);
  const found = shown.text ?? text;
  if (typeof found !== 'string') throw new TypeError('there is no text');
  const lesson = typeof own === 'string' ? lessonWith(own) : shown.lesson;
  return { ...shown, text: found, lesson };
}
