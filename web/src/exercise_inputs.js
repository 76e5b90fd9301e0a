// The inputs of an exercise that are shown, as a table: what each sets, and what is wanted then.
import { CODE } from './declared.js';
import { make } from './dom.js';
import { shortened } from './numbers.js';
import { Source } from './source.js';
import { phrase } from './words.js';

const MOST_ROWS = 20;
const MOST_NAMES = 12;
const MOST_LETTERS = 60;

const shownOf = ({ inputs }) => inputs.filter(({ isHidden }) => !isHidden).slice(0, MOST_ROWS);

// The number of an input among all of them, as a verdict has it.
const numberOf = (exercise, input) => String(exercise.inputs.indexOf(input) + 1);

const valuesOf = (text) => shortened(text.replaceAll(',', ', '), MOST_LETTERS);

const namesIn = (inputs, part) =>
  [...new Set(inputs.flatMap((input) => input[part].map(([name]) => name)))].slice(0, MOST_NAMES);

const cellsOf = (names, pairs) =>
  names.map((name) => make('td', {}, valuesOf(new Map(pairs).get(name) ?? '')));

// Shows the table in this place, which has none where there is no exercise.
export function showInputs(place, exercise) {
  const inputs = exercise ? shownOf(exercise) : [];
  place.hidden = inputs.length === 0;
  const [given, wanted] = [namesIn(inputs, 'given'), namesIn(inputs, 'wanted')];
  const heads = [phrase('input'), ...given,
    ...wanted.map((name) => phrase('{0} wanted', name))].map((head) => shortened(head, MOST_LETTERS));
  const rows = inputs.map((input) => make('tr', {},
    make('th', { scope: 'row' }, numberOf(exercise, input)), ...cellsOf(given, input.given),
    ...cellsOf(wanted, input.wanted)));
  place.replaceChildren(make('table', {},
    make('caption', { class: 'unseen' }, phrase('Inputs that are shown')),
    make('thead', {}, make('tr', {}, ...heads.map((head) => make('th', { scope: 'col' }, head)))),
    make('tbody', {}, ...rows)));
}

// What names hold at the end of a trial.
function heldIn({ made, answer }, names) {
  if (made.code !== CODE.DONE) return [];
  const { arrays } = new Source([], made);
  return arrays.filter(({ name }) => names.includes(name)).map(({ name, base, len }) =>
    [name, answer.cells.slice(base, base + len).join()]);
}

// Has what is wanted of those inputs that do not say it, by the reference; tells whether there are
// such. `ask` calls the core, and promises what it tells.
export async function learnWanted(ask, core, exercise) {
  const unknown = shownOf(exercise).filter(({ wanted }) => wanted.length === 0);
  for (const input of unknown) {
    const { text } = core.given(exercise.text, exercise.given + exercise.reference, input.line);
    input.wanted = heldIn(await ask('trial', [text]), exercise.wanted);
  }
  return unknown.length > 0;
}
