// The proved core, called from JavaScript. Nothing here knows the machine: it lays out bytes and
// reads numbers back, as the core's sources declare them.
import { CODE, FORM } from './declared.js';
import { WIDTH, packEffect } from './effects.js';
import { countEvents, kindOfEvent } from './event_words.js';
import { TWIN } from './kinds.js';
import { offsetsOf, readElements, readStruct, sizeOf, wide, wordAt, wordsOf } from './structs.js';

const REQUEST_WORDS = wordsOf('RequestRow');
const STEP_WORDS = wordsOf('StepRow');
const ROW_WORDS = wordsOf('EventRow');
const WORD_WORDS = wordsOf('WordRow');
const READ_WORDS = wordsOf('ReadRow');
const REQUEST = offsetsOf('RequestRow');
const STEP = offsetsOf('StepRow');
const WORD = offsetsOf('WordRow');
const READ = offsetsOf('ReadRow');

// Room in the core's memory for one call.
class Desk {
  constructor(exports) {
    this.exports = exports;
    this.taken = [];
  }

  room(bytes) {
    const at = this.exports.page_room(BigInt(Math.max(bytes, 16)));
    if (at === 0n) throw new RangeError('the page is out of memory');
    this.taken.push(at);
    return at;
  }

  put(bytes) {
    const at = this.room(bytes.length);
    new Uint8Array(this.exports.memory.buffer, Number(at), bytes.length).set(bytes);
    return at;
  }

  // The memory as it stands: a call that takes room may move it.
  memory() {
    return new Uint32Array(this.exports.memory.buffer);
  }

  clear() {
    for (const at of this.taken) this.exports.page_free(at);
  }
}

function atDesk(exports, work) {
  const desk = new Desk(exports);
  try {
    return work(desk);
  } finally {
    desk.clear();
  }
}

const encoder = new TextEncoder();
const decoder = new TextDecoder();
let encoded = { text: '', bytes: new Uint8Array(0) };

// The bytes of the text that was asked for last are kept.
function putText(desk, text) {
  if (encoded.text !== text) encoded = { text, bytes: encoder.encode(text) };
  return [desk.put(encoded.bytes), BigInt(encoded.bytes.length)];
}

function readText(desk, at, length) {
  return decoder.decode(new Uint8Array(desk.exports.memory.buffer, Number(at), length));
}

function putEvents(desk, events) {
  const at = desk.put(new Uint8Array(events.buffer, events.byteOffset, events.byteLength));
  return [at, BigInt(countEvents(events))];
}

function tell(desk, struct, call) {
  const told = desk.room(sizeOf(struct));
  call(told);
  return readStruct(desk.memory(), wordAt(told), struct);
}

const isFilled = ({ code }) => code === CODE.DONE || code === CODE.CONFLICT;

// Room for a list of so many elements at most, and for what is told of it.
function roomForList(desk, element, most) {
  const [rows, told] = [desk.room(most * sizeOf(element)), desk.room(sizeOf('Told'))];
  return { rows, told, room: [rows, BigInt(most), told] };
}

// What is told of the list, which `read` takes from the memory.
function readList(desk, { rows, told: at }, read) {
  const told = readStruct(desk.memory(), wordAt(at), 'Told');
  return { ...told, list: read(desk.memory(), wordAt(rows), isFilled(told) ? told.count : 0) };
}

// A call that fills one list.
function tellList(desk, element, most, call, read) {
  const list = roomForList(desk, element, most);
  call(...list.room);
  return readList(desk, list, read);
}

const readNumbers = (memory, at, count) => memory.slice(at, at + count);
// There are many of these: written out they are read in a third of the time.
const readRequests = (memory, rows, count) => Array.from({ length: count }, (_, k) => {
  const at = rows + k * REQUEST_WORDS;
  return {
    counter: memory[at + REQUEST.counter], status: memory[at + REQUEST.status],
    reads: memory[at + REQUEST.reads], held: memory[at + REQUEST.held],
    target: memory[at + REQUEST.target], number: memory[at + REQUEST.number],
    value: memory[at + REQUEST.value], next: memory[at + REQUEST.next],
  };
});
const readSteps = (memory, at, count) => readElements(memory, at, 'StepRow', count);
const readLast = (memory, at, count) => readElements(memory, at, 'LastRow', count);

// After how many steps the first processor that runs stands at one of these instructions, and at
// which: one pair after the other.
function readStarts(memory, rows, count, instructions) {
  const found = [];
  for (let k = 0; k < count; k += 1) {
    const at = memory[rows + k * STEP_WORDS + STEP.at];
    if (instructions.has(at)) found.push(k, at);
  }
  return Uint32Array.from(found);
}

// Of each cell the step and the value that a reader gets, one pair after the other.
function readPairs(memory, rows, count) {
  const pairs = new Uint32Array(2 * count);
  for (let k = 0; k < count; k += 1) {
    pairs[2 * k] = memory[rows + k * READ_WORDS + READ.step];
    pairs[2 * k + 1] = memory[rows + k * READ_WORDS + READ.value];
  }
  return pairs;
}

// Room that most programs have enough of.
const ROOM = { bytes: 65536, rows: 4096 };

// Codes with which bytes are told.
const WITH_BYTES = [CODE.DONE, CODE.FAILED, CODE.UNFIT];

// A call on texts that fills bytes, and rows of this element where it has such: it is made again
// where there was too little room. `struct` is what it tells besides.
function tellFilled(exports, texts, { struct, element }, call, most = ROOM) {
  const told = atDesk(exports, (desk) => {
    const inputs = texts.flatMap((text) => putText(desk, text));
    const bytes = desk.room(most.bytes);
    const count = element ? most.rows : 0;
    const rows = desk.room(element ? count * sizeOf(element) : 0);
    const found = tell(desk, struct, (at) => call(inputs, [bytes, BigInt(most.bytes)],
      [rows, BigInt(count)], at));
    const isTold = WITH_BYTES.includes(found.code);
    return {
      ...found,
      text: isTold ? readText(desk, bytes, found.bytes) : '',
      list: isTold && element
        ? readElements(desk.memory(), wordAt(rows), element, found.rows) : [],
    };
  });
  return told.code === CODE.NO_ROOM
    ? tellFilled(exports, texts, { struct, element }, call, told) : told;
}

const tellProgram = (exports, text, element, call) =>
  tellFilled(exports, [text], { struct: 'ProgramTold', element }, call);

// Programs of `pardo`, of which the core tells the job as a text of the machine.
function programCalls(exports) {
  const linesOf = (text) => tellProgram(exports, text, 'LineRow', (input, bytes, rows, told) =>
    exports.pram_page_lines(...input, ...rows, told));
  return {
    // The lines of code of a program, with their depths; or why the text is none.
    lines: linesOf,

    // The job of a program, as a text, and the line that each of its instructions came from; and
    // what its cells are for, with their names one after the other.
    compile: (text) => {
      const made = tellProgram(exports, text, 'u64', (input, bytes, rows, told) =>
        exports.pram_page_compile(...input, ...bytes, ...rows, told));
      if (made.code !== CODE.DONE) return made;
      const names = tellProgram(exports, text, 'CellsRow', (input, bytes, rows, told) =>
        exports.pram_page_names(...input, ...bytes, ...rows, told));
      return {
        ...made,
        code: names.code,
        lineOf: made.list,
        cells: names.list,
        names: names.text,
      };
    },
  };
}

// Exercises, which are texts of their own.
function exerciseCalls(exports) {
  return {
    // The entries, with their texts one after the other; or why the text is no exercise.
    entries: (text) => tellFilled(exports, [text],
      { struct: 'ExerciseTold', element: 'EntryRow' }, (inputs, bytes, rows, told) =>
        exports.pram_page_exercise(...inputs, ...bytes, ...rows, told)),

    // A submission with the header as the input in this line of the exercise sets it.
    given: (exercise, submission, line) => tellFilled(exports, [exercise, submission],
      { struct: 'ExerciseTold' }, (inputs, bytes, rows, told) =>
        exports.pram_page_given(...inputs, BigInt(line), ...bytes, told)),

    // Whether a submission meets all inputs of an exercise, or the first thing that is wrong.
    verdict: (exercise, submission) => tellFilled(exports, [exercise, submission],
      { struct: 'VerdictTold' }, (inputs, bytes, rows, told) =>
        exports.pram_page_verdict(...inputs, ...bytes, told)),
  };
}

// `sizes` is what the text was judged to be.
function plainCalls(exports) {
  return {
    judge: (text) => atDesk(exports, (desk) => tell(desk, 'Judgement', (told) =>
      exports.pram_page_judge(...putText(desk, text), told))),

    answer: (text, sizes, most) => atDesk(exports, (desk) => {
      const input = putText(desk, text);
      const told = tellList(desk, 'u32', sizes.cells, (...room) =>
        exports.pram_page_answer(...input, most, ...room), readNumbers);
      return { ...told, cells: told.list };
    }),

    // The state after a step, and what the processors ask for in it.
    moment: (text, sizes, step, most) => atDesk(exports, (desk) => {
      const input = putText(desk, text);
      const places = roomForList(desk, 'u32', sizes.places);
      const rows = roomForList(desk, 'RequestRow', sizes.procs);
      exports.pram_page_moment(...input, step, most, ...places.room, ...rows.room);
      const state = readList(desk, places, readNumbers);
      const requests = readList(desk, rows, readRequests);
      return { state: { ...state, places: state.list }, requests };
    }),
  };
}

// The cost, with the meetings that rule out a weaker model, from the weakest one on.
const withMeetings = ({ sameRead, sameWrite, otherValue, ...cost }) =>
  ({ ...cost, meetings: [sameRead, sameWrite, otherValue] });

// Calls about a whole run. None goes on where a step changes nothing.
function runCalls(exports) {
  return {
    fates: (text) => atDesk(exports, (desk) => tell(desk, 'FatesTold', (told) =>
      exports.pram_page_fates(...putText(desk, text), told))),

    cost: (text) => atDesk(exports, (desk) => withMeetings(tell(desk, 'CostTold', (told) =>
      exports.pram_page_cost(...putText(desk, text), told)))),

    // What so many steps from one on do.
    steps: (text, from, count, most) => atDesk(exports, (desk) => {
      const input = putText(desk, text);
      return tellList(desk, 'StepRow', count, (...room) =>
        exports.pram_page_steps(...input, from, most, ...room), readSteps);
    }),

    // After which of so many steps one of these instructions is next.
    starts: (text, count, most, instructions) => atDesk(exports, (desk) => {
      const input = putText(desk, text);
      const wanted = new Set(instructions);
      return tellList(desk, 'StepRow', count, (...room) =>
        exports.pram_page_steps(...input, 0, most, ...room), (memory, at, told) =>
        readStarts(memory, at, told, wanted));
    }),

    // What each processor executed last in the steps up to this one.
    last: (text, sizes, step, most) => atDesk(exports, (desk) => {
      const input = putText(desk, text);
      return tellList(desk, 'LastRow', sizes.procs, (...room) =>
        exports.pram_page_last(...input, step, most, ...room), readLast);
    }),
  };
}

const putRun = (desk, text, workers, events) =>
  [...putText(desk, text), workers, ...putEvents(desk, events)];

// Room for the words of any board with so many places, as boards are; the core tells if there are
// more.
const wordsFor = (places) => 4 * places + 128;

function countTwins(events) {
  let count = 0;
  for (let k = 0; k < countEvents(events); k += 1) if (kindOfEvent(events, k) === TWIN) count += 1;
  return count;
}

// The core orders the words of a board alike at every moment: where those of the nodes and of the
// places stand is looked up once for a text and a number of workers.
function indexOf(memory, words, { words: count, leaves }, places) {
  const index = { nodes: new Uint32Array(2 * leaves), stored: new Uint32Array(2 * places) };
  for (let k = 0; k < count; k += 1) {
    const at = words + k * WORD_WORDS;
    const [form, which] = [memory[at + WORD.form], memory[at + WORD.which]];
    if (form === FORM.NODE) index.nodes[which] = k;
    if (form === FORM.STORED) index.stored[2 * which + memory[at + WORD.part]] = k;
  }
  return index;
}

// What each event did, in few numbers.
function readEffects(memory, rows, count) {
  const effects = new Uint32Array(count * WIDTH);
  for (let k = 0; k < count; k += 1) packEffect(memory, rows + k * ROW_WORDS, effects, k * WIDTH);
  return effects;
}

// The phases of the nodes from the root, which is number 1, on; their words have these numbers.
function readNodes(memory, words, numbers) {
  const phases = new Float64Array(numbers.length);
  for (let node = 1; node < numbers.length; node += 1) {
    phases[node] = wide(memory, words + numbers[node] * WORD_WORDS + WORD.value);
  }
  return phases;
}

// What each word of the board holds.
const readBoard = (memory, words, count) => Array.from({ length: count }, (_, k) =>
  wide(memory, words + k * WORD_WORDS + WORD.value));

// Scenes: the tree, the bodies, the two words of one place or all of the board, the effects of the
// events from `from` on, or what `readRows` reads of them, and the cells as a reader gets them, all
// or none: step and value, one pair after the other.
class Scenes {
  constructor(exports) {
    this.exports = exports;
    this.known = {};
  }

  // What is known of the boards of a text with so many workers: how many words they have.
  knowFor(text, workers, places) {
    const { known } = this;
    if (known.text === text && known.workers === workers) return;
    this.known = { text, workers, words: wordsFor(places) };
  }

  tell(text, workers, events, wanted) {
    this.knowFor(text, workers, wanted.places);
    const room = this.known.words;
    const told = atDesk(this.exports, (desk) => this.ask(desk, text, workers, events, wanted));
    if (told.words > 0) this.known.words = told.words;
    return told.code === CODE.NO_ROOM && told.words > room
      ? this.tell(text, workers, events, wanted) : told;
  }

  ask(desk, text, workers, events, wanted) {
    const { known, exports } = this;
    const asked = countEvents(events) - wanted.from;
    const count = workers + countTwins(events);
    const input = [...putRun(desk, text, workers, events), BigInt(wanted.from)];
    const rows = desk.room(asked * sizeOf('EventRow'));
    const words = desk.room(known.words * sizeOf('WordRow'));
    const bodies = desk.room(count * sizeOf('BodyRow'));
    const cells = roomForList(desk, 'ReadRow', wanted.cells ?? 0);
    const told = tell(desk, 'Scene', (at) => exports.pram_page_scene(...input, rows, BigInt(asked),
      words, BigInt(known.words), bodies, BigInt(count), at, ...cells.room));
    if (told.code !== CODE.DONE) return told;
    const rooms = { rows: wordAt(rows), words: wordAt(words), bodies: wordAt(bodies) };
    const pairs = readList(desk, cells, readPairs).list;
    return { ...this.read(desk.memory(), told, rooms, wanted), pairs };
  }

  read(memory, told, { rows, words, bodies }, { places, place, isWhole, readRows = readEffects }) {
    this.known.index ??= indexOf(memory, words, told, places);
    const { nodes, stored } = this.known.index;
    const wordOf = (k) => readStruct(memory, words + k * WORD_WORDS, 'WordRow');
    return {
      ...told,
      nodes: readNodes(memory, words, nodes),
      bodies: readElements(memory, bodies, 'BodyRow', told.bodies),
      stored: place === undefined ? []
        : [wordOf(stored[2 * place]), wordOf(stored[2 * place + 1])],
      board: isWhole ? readBoard(memory, words, told.words) : [],
      effects: readRows(memory, rows, told.rows),
    };
  }
}

function boardCalls(exports) {
  const scenes = new Scenes(exports);
  return {
    scene: (...asked) => scenes.tell(...asked),

    outcome: (text, sizes, workers, events) => atDesk(exports, (desk) => {
      const input = putRun(desk, text, workers, events);
      const told = tellList(desk, 'u32', sizes.cells, (...room) =>
        exports.pram_page_outcome(...input, ...room), readNumbers);
      return { ...told, cells: told.list };
    }),
  };
}

export async function openCore(bytes) {
  const { instance } = await WebAssembly.instantiate(bytes, {});
  const { exports } = instance;
  return {
    ...programCalls(exports), ...exerciseCalls(exports), ...plainCalls(exports),
    ...runCalls(exports), ...boardCalls(exports),
  };
}
