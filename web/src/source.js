// A program of `pardo`, as the core tells it: its lines of code, and the names of the cells of its
// job.
import { CELLS } from './declared.js';
import { shortened } from './numbers.js';
import { instructionsOf } from './text_lines.js';
import { english, phrase } from './words.js';

const SHARED = [CELLS.SCALAR, CELLS.ARRAY];

const MOST_LETTERS = 60;

// What has no name of its own.
const COUNTED = { [CELLS.LOOP]: 'loop', [CELLS.MASK]: 'mask', [CELLS.KEPT]: 'kept' };

// What each processor has of its own.
const OWN = {
  [CELLS.LOOP]: english('loop {0} of P{1}'),
  [CELLS.MASK]: english('mask {0} of P{1}'),
  [CELLS.KEPT]: english('kept {0} of P{1}'),
  [CELLS.PRIVATE]: english('{0} of P{1}'),
};

const encoder = new TextEncoder();
const decoder = new TextDecoder();

// The rows of cells, each with its own name. Names are told one after the other, by bytes.
function namedRows({ cells, names }) {
  const bytes = encoder.encode(names);
  let at = 0;
  return cells.map(({ base, len, name, width, kind }) => {
    at += name;
    const word = decoder.decode(bytes.subarray(at - name, at));
    return { base, len, width, kind, name: shortened(word, MOST_LETTERS) };
  });
}

// The index of a place, or both indices where it has two.
function indexIn({ width }, index) {
  return width ? `${Math.floor(index / width)},${index % width}` : `${index}`;
}

// The words of an instruction, with the names of the program's cells in place of those that the
// job's text has, which say where cells lie.
function withNames(words, source) {
  return words.replace(/\.a(\d+)_(\d+)/g, (given, base, len) => {
    const row = source.rowOf(Number(base));
    return row?.base === Number(base) && row.len === Number(len)
      ? source.nameOf(row).replace(' ', '') : given;
  });
}

// The depth of each line of the text. An `elsif`, and an `end` of one, are several lines of code,
// and stand where the outermost of these does.
function depthsOf(lines) {
  const depths = new Map();
  for (const { number, depth } of lines) {
    depths.set(number, Math.min(depth, depths.get(number) ?? depth));
  }
  return depths;
}

export class Source {
  // `lines` are the lines of code, `made` is what the core made of the program.
  constructor(lines, made) {
    this.text = made.text;
    this.rows = namedRows(made);
    this.lineOf = made.lineOf;
    this.depths = depthsOf(lines);
    this.masks = this.rows.filter(({ kind }) => kind === CELLS.MASK);
    this.loops = this.rows.filter(({ kind }) => kind === CELLS.LOOP);
    this.privates = this.rows.filter(({ kind }) => kind === CELLS.PRIVATE);
    this.arrays = this.rows.filter(({ kind }) => SHARED.includes(kind));
  }

  // The instructions of the job, each by the line that it came from.
  get program() {
    return instructionsOf(this.text).map(({ line, words }, index) => (
      { line: this.lineOf[index], words: withNames(words, this), at: line }));
  }

  // The instructions at which a line begins. The last one is no line's.
  get starts() {
    const { lineOf } = this;
    return lineOf.flatMap((line, index) => (index > 0 && index < lineOf.length - 1 &&
      line !== lineOf[index - 1] ? [index] : []));
  }

  // How many cells the shared arrays have: they are the first ones.
  get shared() {
    const last = this.arrays.at(-1);
    return last ? last.base + last.len : 0;
  }

  // Rows follow one another: the number of the last one that begins at this cell or before it.
  numberOfRow(cell) {
    let [low, high] = [0, this.rows.length - 1];
    while (low < high) {
      const middle = Math.ceil((low + high) / 2);
      if (this.rows[middle].base <= cell) low = middle;
      else high = middle - 1;
    }
    return low;
  }

  rowOf(cell) {
    const row = this.rows[this.numberOfRow(cell)];
    return row && cell < row.base + row.len ? row : undefined;
  }

  // Whether a cell is the first of an array, or of one of its rows, or of scalars that follow one
  // another.
  isFirst(cell) {
    const at = this.numberOfRow(cell);
    const row = this.rows[at];
    if (row?.width) return (cell - row.base) % row.width === 0;
    if (row?.base !== cell) return false;
    return row.kind !== CELLS.SCALAR || this.rows[at - 1]?.kind !== CELLS.SCALAR;
  }

  // Loops and masks have no name in the text: they are counted by their depth. What hidden lines
  // keep of a long line is counted in its order.
  numberOf(row) {
    if (COUNTED[row.kind] === undefined) return undefined;
    return this.rows.filter(({ kind }) => kind === row.kind).indexOf(row) + 1;
  }

  nameOf(row) {
    const number = this.numberOf(row);
    return number === undefined ? row.name : `${COUNTED[row.kind]} ${number}`;
  }

  nameOfCell(cell) {
    const row = this.rowOf(cell);
    if (!row) return phrase('cell {0}', cell);
    const index = cell - row.base;
    switch (row.kind) {
      case CELLS.SCALAR: return row.name;
      case CELLS.ARRAY: return `${row.name}[${indexIn(row, index)}]`;
      default: return phrase(OWN[row.kind], this.numberOf(row) ?? row.name, index);
    }
  }

  // The first cell of the mask that says who is in all the `if`s that are open before a line.
  maskOf(line) {
    return this.masks[(this.depths.get(line) ?? 0) - 1]?.base;
  }

  // Whether a processor is active in a line.
  isActive(places, processor, line) {
    const mask = this.maskOf(line);
    return mask === undefined || places[mask + processor] !== 0;
  }
}
