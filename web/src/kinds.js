// Numbers of the core that its source has in functions, without a name. docs/page-core.txt has what
// the source says of them, at the struct that each is a field of.
import { ACTIVITY } from './declared.js';

// Of a request: whether its processor runs, and where it writes to.
export const STATUS = { RUNS: 0, HALTED: 1, OUT_OF_RANGE: 2 };
export const TARGET = { NOTHING: 0, CELL: 1, REGISTER: 2 };

// Of a body: what it is doing.
export const DOING = { LOST: 0, ...ACTIVITY };

// Of an event: one body more.
export const TWIN = 3;

// Of a word that is a part of a request: which one.
export const PART = { PLACE: 0, VALUE: 1, NEXT: 2 };
