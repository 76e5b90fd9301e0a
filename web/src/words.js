// The page's texts in the language that is chosen. A text is asked for by its English words, in
// which {0}, {1} and so on stand for what is put in.
import { grouped } from './numbers.js';

export const ENGLISH = 'en';
const FRENCH = 'fr';
const HOLE = /\{(\d+)\}/;
const HOLES = /\{(\d+)\}/g;

let spoken = { tag: ENGLISH, texts: {} };

// The language, as HTML names it.
export const language = () => spoken.tag;

// From now on texts are those of this table, which has them by their English words.
export function speak(tag, texts) {
  spoken = { tag, texts };
}

// Marks an English text that is asked for later.
export const english = (text) => text;

// A text that the table lacks stays English.
const textOf = (text) => (Object.hasOwn(spoken.texts, text) ? spoken.texts[text] : text);

export const phrase = (text, ...parts) =>
  textOf(text).replace(HOLES, (_, number) => parts[number]);

// The pieces of a text of which the parts are elements.
export const piecesOf = (text, parts) =>
  textOf(text).split(HOLE).map((piece, k) => (k % 2 === 1 ? parts[piece] : piece));

// In French none is one, too.
const isOne = (number) => number === 1 || (number === 0 && spoken.tag === FRENCH);

// A text for one, or else one for many. Its part {0} is the number.
export const counted = (number, one, many, ...parts) =>
  phrase(isOne(number) ? one : many, grouped(number), ...parts);
