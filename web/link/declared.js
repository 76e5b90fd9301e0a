// What the core's sources declare, and what the page and docs/page-core.txt have from there: codes,
// structs, the numbers and the words of enums, instructions, and the sentences on texts.
import { readFileSync, readdirSync } from 'node:fs';
import { dirname, join } from 'node:path';
import { fileURLToPath } from 'node:url';
import {
  callsIn, constantsIn, layoutsOf, numbersIn, structsIn, variantsIn, wordsIn,
} from './rattle.js';

const crates = join(dirname(fileURLToPath(import.meta.url)), '..', '..', 'crates');
const read = (file) => readFileSync(join(crates, file), 'utf8');
const ofPage = (name) => read(`page_core/src/${name}.rt`);

const byName = (constants) =>
  Object.fromEntries(constants.map(({ name, value }) => [name, value]));

// Words by the numbers of what they are for.
function byNumber(numbers, words) {
  return Object.fromEntries(Object.entries(numbers).map(([name, number]) => {
    if (words[name] === undefined) throw new Error(`there are no words for ${name}`);
    return [number, words[name]];
  }));
}

// ---- codes

// Those of exercises come after the others.
const constants = [...constantsIn(ofPage('codes')), ...constantsIn(ofPage('exercise_codes'))];
const isLimit = ({ name }) => name.endsWith('_MOST');

// What is at most, how calls end, and what cells are for.
export const limits = constants.filter(isLimit);
export const codes = constants.filter((one) => one.type === 'u32' && !isLimit(one));
export const cells = constants.filter((one) => one.type === 'u64' && !isLimit(one));

export const CODE = byName(codes);
export const CELLS = byName(cells);
export const LIMIT = byName([...limits, ...constantsIn(read('pram_job/src/limits.rt'))]);

// ---- numbers of enums

// Out of memory is a code of its own.
function faultsIn(source, name) {
  const { MEMORY, ...faults } = numbersIn(source, name);
  return faults;
}

export const TEXT_FAULT = faultsIn(ofPage('text'), 'number_of_kind');
export const PROGRAM_FAULT = faultsIn(ofPage('program'), 'number_of_text_kind');
export const JOB_FAULT = faultsIn(ofPage('program'), 'number_of_job_kind');
export const RULE = numbersIn(ofPage('text'), 'number_of_rule');
export const MODEL = numbersIn(ofPage('cost'), 'number_of_model');
export const PASS = numbersIn(ofPage('bodies'), 'number_of_pass');
export const ACTIVITY = numbersIn(ofPage('bodies'), 'walking_row', 'doing');
export const FORM = numbersIn(ofPage('words'), 'meaning_of');
export const OP = numbersIn(ofPage('rows'), 'step_of_effect');
export const END = numbersIn(ofPage('fates'), 'tell_end', 'kind');
export const EVENT = variantsIn(ofPage('board'), 'happen');

export const KEY = numbersIn(ofPage('entries'), 'number_of_key');
export const EXERCISE_FAULT = faultsIn(ofPage('entries'), 'number_of_exercise_kind');
export const WRONG = numbersIn(ofPage('verdict'), 'tell_wrong', 'kind');
export const UNFIT = numbersIn(ofPage('verdict'), 'tell_unfit', 'kind');
export const BAR = numbersIn(ofPage('verdict'), 'number_of_bar');
export const SHARING = numbersIn(ofPage('verdict'), 'number_of_sharing');

// ---- words

export const RULES = byNumber(RULE, wordsIn(read('job_text/src/print.rt'), 'Rule'));
export const MODELS = byNumber(MODEL, wordsIn(read('pram_cost/src/pram.rt'), 'Pram'));

const sentences = read('refusals/src/sentences.rt');

export const SENTENCES = byNumber(TEXT_FAULT, wordsIn(sentences, 'TextKind'));
export const PROGRAM_SENTENCES = {
  ...byNumber(PROGRAM_FAULT, wordsIn(sentences, 'PardoKind')),
  ...byNumber(JOB_FAULT, wordsIn(sentences, 'JobKind')),
};

// The table of instructions: their names and the shapes of their operands.
export const INSTRUCTIONS = [...read('pram_job/src/instr.rt')
  .matchAll(/=> \("(\w+)", Operands::(\w+)/g)].map(([, name, operands]) => [name, operands]);

// ---- calls and structs

const filesOf = (folder) =>
  readdirSync(join(crates, folder)).sort().map((name) => read(join(folder, name)));

export const calls = ['programs', 'plain', 'runs', 'boards', 'exercises']
  .flatMap((name) => callsIn(read(`pram_page/src/${name}.rt`)));

export const layouts = layoutsOf(
  [...filesOf('page_core/src'), read('pram_step/src/last.rt')].flatMap(structsIn));

const camelCase = (name) => name.replaceAll(/_([a-z])/g, (_, letter) => letter.toUpperCase());

// How many bytes numbers and structs have.
export const SIZES = Object.fromEntries([...layouts].map(([name, { size }]) => [name, size]));

// How many bytes stand before a field, with its type where that is another one than u32.
const placeOf = ({ type, offset }) => (type === 'u32' ? offset : [offset, type]);

// The fields of structs.
export const FIELDS = Object.fromEntries([...layouts].filter(([, { fields }]) => fields)
  .map(([name, { fields }]) => [name,
    Object.fromEntries(fields.map((field) => [camelCase(field.name), placeOf(field)]))]));
