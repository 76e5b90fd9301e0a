// declared_test.js PAGE: what is read of sources, in Node, and that the page and its core have what
// the sources declare.
import { readFileSync, readdirSync } from 'node:fs';
import * as declared from '../src/declared.js';
import * as kinds from '../src/kinds.js';
import { importsOf, written } from '../link/declared_module.js';
import {
  callsIn, constantsIn, layoutsOf, numbersIn, structsIn, variantsIn, wordsIn,
} from '../link/rattle.js';
import { coreBytesOf, scriptsOf } from './page_parts.js';
import { report } from './report.js';

const [pagePath] = process.argv.slice(2);
const { is, end } = report();
const same = (what, got, wanted) => is(what, JSON.stringify(got), JSON.stringify(wanted));

function refusalOf(work) {
  try {
    work();
    return 'taken';
  } catch ({ message }) {
    return message;
  }
}

const CONSTANTS = `//! Codes.

/// All is well,
/// and told.
pub const DONE: u32 = 0;

pub const TEXT_MOST: usize = 16_777_216;

const OWN: u32 = 3;
`;

function testConstants() {
  same('constants', constantsIn(CONSTANTS), [
    { name: 'DONE', type: 'u32', value: 0, comment: 'All is well, and told.' },
    { name: 'TEXT_MOST', type: 'usize', value: 16777216, comment: '' }]);
}

const STRUCTS = `/// An outer one.
#[repr(C)]
#[derive(Clone, Copy)]
pub struct Outer {
    pub first: u32,
    pub inner: Inner,
    pub last: u32,
}

/// No layout of C's.
pub struct Own {
    pub text: String,
}

#[repr(C)]
pub struct Inner {
    pub small: u32,
    pub wide: u64,
    pub other_one: u32,
}
`;

const placesOf = ({ fields }) => fields.map(({ name, type, offset }) => [name, type, offset]);

function testStructs() {
  const structs = structsIn(STRUCTS);
  same('structs', structs.map(({ name, comment }) => [name, comment]),
    [['Outer', 'An outer one.'], ['Inner', '']]);
  const layouts = layoutsOf(structs);
  const [outer, inner] = ['Outer', 'Inner'].map((name) => layouts.get(name));
  same('fields at their alignments', placesOf(inner),
    [['small', 'u32', 0], ['wide', 'u64', 8], ['other_one', 'u32', 16]]);
  same('rounded up', [inner.size, inner.alignment], [24, 8]);
  same('one in another', placesOf(outer),
    [['first', 'u32', 0], ['inner', 'Inner', 8], ['last', 'u32', 32]]);
  same('its size', outer.size, 40);
  is('a type of no known layout', refusalOf(() => layoutsOf(structsIn(STRUCTS.replace('u64', 'f64')))),
    'the layout of f64 is not known');
  is('a field of another form',
    refusalOf(() => structsIn(STRUCTS.replace('pub wide: u64', 'pub wide: [u32; 2]'))),
    'no field of a struct is written “pub wide: [u32; 2]”');
}

const CALLS = `/// Tells it.
#[unsafe(no_mangle)]
pub extern "C" fn page_tell(
    alloc: Global,
    text: &[u8],
    most: u32,
    told: &mut Told,
)
    ensures { it }
{
}

#[unsafe(no_mangle)]
pub extern "C" fn page_judge(alloc: Global, told: &mut Told) {
}
`;

function testCalls() {
  same('calls', callsIn(CALLS), [
    { name: 'page_tell', comment: 'Tells it.',
      parameters: ['text: &[u8]', 'most: u32', 'told: &mut Told'] },
    { name: 'page_judge', comment: '', parameters: ['told: &mut Told'] }]);
}

const NUMBERS = `fn number_of_kind(kind: Kind) -> u32
    ensures { result ≡ 5 }
{
    match kind {
        Kind::NotAscii => 1,
        Kind::Memory => 12,
    }
}

pub(crate) fn meaning_of(word: Word) -> Meaning {
    let (form, which) = match word {
        Word::Conflict => (0, 0),
        Word::Asked(processor, part) => (2, part),
        Some(Op::Over(_)) | None => (7, 0),
    };
}

fn row(activity: Activity) -> Row {
    match activity {
        Activity::Begin => Row { doing: 2, ..at },
        Activity::Turn(phase) | Activity::Part(phase, _) => Row {
            phase,
            doing: 3,
        },
        Activity::Over(Ended::Done) => Row { doing: 4, ..at },
        Activity::Over(Ended::Conflict(step)) => Row {
            doing: 5,
            step,
        },
        Some(
            End::Running {
                count,
                first,
            },
        ) => Row {
            line: line_of(first),
            doing: 6,
        },
    }
}

fn happen(event: Event) -> Effect {
    match event.kind {
        0 => Ok(world.event(WorldEvent::Go(body))),
        1 => Ok(world.event(WorldEvent::Back(body))),
        _ => Ok(9),
    }
}

fn name(self) -> &'static str {
    match self {
        Kind::NotAscii => "a word",
        Kind::Memory =>
            "two words",
        Other::Memory => "not this one",
    }
}
`;

function testNumbers() {
  same('numbers', numbersIn(NUMBERS, 'number_of_kind'), { NOT_ASCII: 1, MEMORY: 12 });
  same('the first of several', numbersIn(NUMBERS, 'meaning_of'),
    { CONFLICT: 0, ASKED: 2, OVER: 7 });
  same('a field', numbersIn(NUMBERS, 'row', 'doing'),
    { BEGIN: 2, TURN: 3, DONE: 4, CONFLICT: 5, RUNNING: 6 });
  same('variants of numbers', variantsIn(NUMBERS, 'happen'), { GO: 0, BACK: 1 });
  same('words', wordsIn(NUMBERS, 'Kind'), { NOT_ASCII: 'a word', MEMORY: 'two words' });
  is('a function that is gone', refusalOf(() => numbersIn(NUMBERS, 'number_of_rule')),
    'a function number_of_rule is not there any more');
  is('one without numbers', refusalOf(() => numbersIn(NUMBERS, 'name')),
    'the function name has no numbers');
}

// No two names of a kind have one number, those without a name in the source among them.
function testKinds() {
  const { CODE, CELLS, TEXT_FAULT, RULE, MODEL, PASS, FORM, OP, END, EVENT } = declared;
  const { KEY, EXERCISE_FAULT, WRONG, UNFIT, BAR, SHARING } = declared;
  const { STATUS, TARGET, DOING, PART, TWIN } = kinds;
  const program = Object.entries({ ...declared.PROGRAM_FAULT })
    .concat(Object.entries(declared.JOB_FAULT).map(([name, number]) => [`JOB_${name}`, number]));
  const all = { CODE, CELLS, TEXT_FAULT, RULE, MODEL, PASS, FORM, OP, END, STATUS, TARGET, DOING, PART,
    KEY, EXERCISE_FAULT, WRONG, UNFIT, BAR, SHARING, EVENT: { ...EVENT, TWIN },
    PROGRAM: Object.fromEntries(program) };
  for (const [name, numbers] of Object.entries(all)) {
    const each = Object.values(numbers).sort((one, other) => one - other);
    is(`${name}: each has its number`, new Set(each).size, each.length);
  }
}

const folder = new URL('../src/', import.meta.url);
const importedBy = (name) => importsOf(readFileSync(new URL(name, folder), 'utf8'));

// The page's maker wrote there what the sources declare now.
function testPage() {
  const { script, thread } = scriptsOf(pagePath);
  const modules = readdirSync(folder).filter((name) => name.endsWith('.js'));
  for (const word of new Set(modules.flatMap(importedBy))) {
    is(`${word} in the page`, script.includes(written(declared[word])), true);
  }
  for (const word of ['core.js', 'structs.js'].flatMap(importedBy)) {
    is(`${word} in its thread`, thread.includes(written(declared[word])), true);
  }
  const core = new WebAssembly.Module(coreBytesOf(pagePath));
  const exported = new Set(WebAssembly.Module.exports(core).map(({ name }) => name));
  for (const { name } of declared.calls) is(`${name} of the core`, exported.has(name), true);
}

testConstants();
testStructs();
testCalls();
testNumbers();
testKinds();
testPage();
end();
