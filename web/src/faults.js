// What is wrong with a line: the program's sentence, and words that help.
import { INSTRUCTIONS, SENTENCES, TEXT_FAULT } from './declared.js';
import { shortened } from './numbers.js';
import { english, phrase } from './words.js';

const OF_ARRAYS = english(
  '“{0}” needs two registers, as in “{1}”, or in pram 3 of an array A “{2}”.');

// What an instruction needs, an example, and one of an array, which pram 3 has.
const OPERANDS = {
  Bare: [english('“{0}” needs no operand, as in “{1}”.'), ''],
  Target: [english('“{0}” needs one register, as in “{1}”.'), ' r0'],
  TargetNumber: [english('“{0}” needs a register and a number, as in “{1}”.'), ' r1 5'],
  TargetPlace: [OF_ARRAYS, ' r1 r0', ' r1 A r0'],
  TargetTwo: [english('“{0}” needs three registers, as in “{1}”.'), ' r2 r0 r1'],
  PlaceValue: [OF_ARRAYS, ' r0 r1', ' A r0 r1'],
  RegisterIndex: [english('“{0}” needs a register and a label, as in “{1}”.'), ' r0 again'],
  Index: [english('“{0}” needs one label, as in “{1}”.'), ' again'],
};

const LIMITS = {
  cells: english('There are 1 to 65,536 cells, with pram 3 up to 1,048,576.'),
  procs: english('There are 1 to 1,024 processors, with pram 3 up to 65,536.'),
  steps: english('There are at most 4,294,967,295 steps.'),
  init: english('A cell must be one that there is, and a value is at most 4,294,967,295.'),
  array: english('An array has a cell at least, and all of its cells must be ones that there are.'),
};

const MOST = english('A number is at most 4,294,967,295.');

const HEADER = english(
  'The lines before the program are, in this order: pram 1, cells M, procs N, steps T, ' +
  'any number of init CELL VALUE, code. With pram 2, a line rule common, rule priority or ' +
  'rule crew stands after steps. With pram 3, any number of array NAME BASE LENGTH stand after ' +
  'that, and an init may have more values, for the cells that follow.');

function wordsOf(line) {
  const words = line.split(';', 1)[0].split(/[ \t\r]+/).filter((word) => word !== '');
  return words.map((word) => shortened(word, 40));
}

// The words of an instruction line, without its label.
function instructionOf(line) {
  const words = wordsOf(line);
  return words[0]?.endsWith(':') ? words.slice(1) : words;
}

const FOREIGN = {
  number: english('The character of number {0} in column {1} is not allowed, in comments either.'),
  sign: english('The character “{0}” in column {1} is not allowed, in comments either.'),
};

// What is said of the first character of a line that is not among the allowed ones.
export function foreignCharacter(line, allowed = /[\t\r\x20-\x7e]/, said = FOREIGN) {
  const at = [...line].findIndex((character) => !allowed.test(character));
  if (at < 0) return '';
  const character = [...line][at];
  return /\p{C}|\s/u.test(character) ? phrase(said.number, character.codePointAt(0), at + 1)
    : phrase(said.sign, character, at + 1);
}

function whatIsWrongInHeader(words) {
  const [first, name] = words;
  if (first === 'array' && words.length === 4) {
    return phrase('“{0}” names an array already or can name none, or array does not stand here.',
      name);
  }
  if (first === 'init' && words.length === 3) {
    return phrase('Cell {0} was given a value before, or init does not stand here.', name);
  }
  if (first === 'rule') {
    return phrase('A rule is common, priority or crew, and stands only in a text of pram 2 or 3.');
  }
  return words.length > 0 ? phrase('“{0}” does not stand here.', words.join(' '))
    : phrase('A line is missing.');
}

const badHeader = (line) => `${whatIsWrongInHeader(wordsOf(line))} ${phrase(HEADER)}`;

function badNumber(line) {
  const wrong = instructionOf(line).slice(1).find((word) => !/^(\d+|r[0-3])$/.test(word));
  return wrong ? phrase('“{0}” must be a number, as in “cells 8” or “set r1 5”.', wrong)
    : phrase('A number is missing, as in “cells 8” or “set r1 5”.');
}

function unknownInstruction(line) {
  const [name] = instructionOf(line);
  if (name === undefined) {
    return phrase('An instruction must stand after the label, on the same line.');
  }
  const labelled = wordsOf(line)[0].endsWith(':') && !/^[A-Za-z_]\w*:$/.test(wordsOf(line)[0]);
  if (labelled) return phrase('A label is a letter or _, then letters, digits and _, then “:”.');
  const names = INSTRUCTIONS.map(([known]) => known).join(', ');
  return phrase('There is no instruction “{0}”. There are {1}; shl, shr, div and rem with pram 3 ' +
    'alone.', name, names);
}

function wrongOperands(line) {
  const [name] = instructionOf(line);
  const row = INSTRUCTIONS.find(([known]) => known === name);
  if (!row) return '';
  const [needed, ...examples] = OPERANDS[row[1]];
  return phrase(needed, name, ...examples.map((operands) => name + operands));
}

function badRegister(line) {
  const operands = instructionOf(line).slice(1);
  const wrong = operands.find((word) => !/^r[0-3]$/.test(word));
  return wrong === undefined ? phrase('An operand is no register.')
    : phrase('“{0}” is no register.', wrong);
}

function duplicateLabel(line) {
  const [label] = wordsOf(line);
  return phrase('It is “{0}”.', label.slice(0, -1));
}

function unknownLabel(line) {
  const label = instructionOf(line).at(-1);
  return phrase('A line defines “{0}” by beginning with “{0}:”.', label);
}

const HELP = {
  [TEXT_FAULT.NOT_ASCII]: (line) => foreignCharacter(line),
  [TEXT_FAULT.BAD_HEADER]: badHeader,
  [TEXT_FAULT.BAD_NUMBER]: badNumber,
  [TEXT_FAULT.OUT_OF_LIMITS]: (line) => phrase(LIMITS[wordsOf(line)[0]] ?? MOST),
  [TEXT_FAULT.UNKNOWN_INSTRUCTION]: unknownInstruction,
  [TEXT_FAULT.WRONG_OPERANDS]: wrongOperands,
  [TEXT_FAULT.BAD_REGISTER]: badRegister,
  [TEXT_FAULT.DUPLICATE_LABEL]: duplicateLabel,
  [TEXT_FAULT.UNKNOWN_LABEL]: unknownLabel,
};

const REFUSED = english('this line is refused');

// A sentence of the program, and words that help.
export function refusalInWords(sentence, help) {
  const said = phrase('{0}.', phrase(sentence ?? REFUSED));
  return help ? `${said} ${help}` : said;
}

export const wordsOfFault = (fault, line) =>
  refusalInWords(SENTENCES[fault], HELP[fault]?.(line));
