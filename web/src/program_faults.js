// What is wrong with a line of a program: the program's sentence, and words that help.
import { JOB_FAULT, PROGRAM_FAULT, PROGRAM_SENTENCES } from './declared.js';
import { foreignCharacter, refusalInWords } from './faults.js';
import { shortened } from './numbers.js';
import { english, phrase } from './words.js';

const HEADER = english(
  'The lines before “code” are: pardo 1, then rule common, rule priority or rule crew; and then, ' +
  'in any order, const NAME = VALUE, just one procs NAME < COUNT, shared NAME or ' +
  'shared NAME[COUNT] with “= values” or without, private NAME after procs.');

const FORMS = english(
  'A line of code is NAME := VALUE, NAME[INDEX] := VALUE, if CONDITION, elsif CONDITION, else, ' +
  'end, while CONDITION, for NAME = FIRST to LAST, or the same with downto, assert CONDITION.');

const saidIn = (line) => line.split(';', 1)[0];

const wordsOf = (line) => saidIn(line).split(/[^A-Za-z0-9_]+/).filter((word) => word !== '');

const OUTSIDE_COMMENTS = {
  number: english('The character of number {0} in column {1} is allowed in comments alone.'),
  sign: english('The character “{0}” in column {1} is allowed in comments alone.'),
};

// A comment has any characters but those that control; the rest of a line is ASCII.
const foreignToProgram = (line) =>
  foreignCharacter(line, /[\t\r\x20-\x7e\x80-\u{10ffff}]/u)
  || foreignCharacter(saidIn(line), /[\t\r\x20-\x7e]/, OUTSIDE_COMMENTS);

// The first character that begins no token.
function badSymbol(line) {
  const rest = saidIn(line).replace(/:=|!=|[A-Za-z0-9_ \t\r+*/%&|<>=()[\],-]|\.\.\./g, '');
  if (rest.startsWith('^')) {
    return phrase('It is “^”: a power of two is 1 << h, exclusive or is xor.');
  }
  return rest === '' ? '' : phrase('It is “{0}”.', shortened(rest, 1));
}

function badLine(line) {
  const assigns = /^\s*[A-Za-z_]\w*\s*(\[.*\]\s*)?=[^=]/.test(saidIn(line));
  return assigns ? `${phrase('“:=” assigns, “=” compares.')} ${phrase(FORMS)}` : phrase(FORMS);
}

function duplicateName(line) {
  const name = wordsOf(line)[1];
  return name === undefined ? '' : phrase('It is “{0}”.', shortened(name, 40));
}

const HELP = {
  [PROGRAM_FAULT.NOT_ASCII]: foreignToProgram,
  [PROGRAM_FAULT.BAD_SYMBOL]: badSymbol,
  [PROGRAM_FAULT.BAD_HEADER]: () => phrase(HEADER),
  [PROGRAM_FAULT.BAD_LINE]: badLine,
  [PROGRAM_FAULT.DUPLICATE_NAME]: duplicateName,
  [PROGRAM_FAULT.WRONG_KIND]: () => phrase('An array needs an index and a scalar has none; no ' +
    'value goes to a constant, to the own number or to a loop’s variable; loops go by what is ' +
    'the same for all processors.'),
  [PROGRAM_FAULT.OUT_OF_LIMITS]: () => phrase('Numbers go up to 4,294,967,295, processors to ' +
    '65,536, places of an array to 1,048,576.'),
  [PROGRAM_FAULT.TOO_MANY_CELLS]: () => phrase('A private variable, a depth of loops and a depth ' +
    'of ifs each take one for each processor.'),
  [PROGRAM_FAULT.OPEN_BLOCK]: () => phrase('Each if, while and for needs an end.'),
  [JOB_FAULT.TOO_MANY_CELLS]: () => phrase('Lines for which three registers are too few have ' +
    'hidden lines before them. These need private variables without a name: as many as the line ' +
    'with most hidden lines has.'),
  [JOB_FAULT.ENDLESS]: () => phrase('Does what its loop goes by ever change? A processor that is ' +
    'not in an if changes nothing there.'),
};

export const wordsOfProgramFault = (fault, line) =>
  refusalInWords(PROGRAM_SENTENCES[fault], HELP[fault]?.(line));
