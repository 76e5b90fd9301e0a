// Reads what Rattle sources declare. The formatter lays them out, so each thing has one shape.

// A comment without its slashes, as one line.
const said = (comment) => comment.replaceAll(/^\/\/\/ ?/gm, '').trim().replaceAll('\n', ' ');

// NotAscii becomes NOT_ASCII.
const constantCase = (name) => name.replaceAll(/(?<=[a-z])(?=[A-Z])/g, '_').toUpperCase();

// Constants that are numbers.
export function constantsIn(source) {
  const rows = source.matchAll(/((?:^\/\/\/.*\n)*)^pub const (\w+): (\w+) = ([\d_]+);/gm);
  return [...rows].map(([, comment, name, type, value]) =>
    ({ name, type, value: Number(value.replaceAll('_', '')), comment: said(comment) }));
}

function fieldOf(line) {
  const [, name, type] = /^pub (\w+): (\w+)$/.exec(line) ?? [];
  if (name === undefined) throw new Error(`no field of a struct is written “${line}”`);
  return { name, type };
}

// Structs that have C's layout.
export function structsIn(source) {
  const rows = source.matchAll(
    /((?:^\/\/\/.*\n)*)^#\[repr\(C\)\]\n(?:#.*\n)*pub struct (\w+) \{\n([^}]*)\}/gm);
  return [...rows].map(([, comment, name, body]) => {
    const lines = body.split(',\n').map((line) => line.trim()).filter((line) => line !== '');
    return { name, comment: said(comment), fields: lines.map(fieldOf) };
  });
}

const roundedUp = (offset, alignment) => Math.ceil(offset / alignment) * alignment;

// Each field stands at the next offset that its type's alignment allows.
function laidOut({ name, comment, fields }, layoutOf) {
  let [end, alignment] = [0, 1];
  const placed = fields.map((field) => {
    const type = layoutOf(field.type);
    const offset = roundedUp(end, type.alignment);
    end = offset + type.size;
    alignment = Math.max(alignment, type.alignment);
    return { ...field, offset };
  });
  return { name, comment, alignment, size: roundedUp(end, alignment), fields: placed };
}

// The layouts of structs, which may have one another as fields, by their names.
export function layoutsOf(structs) {
  const layouts = new Map([['u32', { size: 4, alignment: 4 }], ['u64', { size: 8, alignment: 8 }]]);
  const layoutOf = (type) => {
    if (layouts.has(type)) return layouts.get(type);
    const struct = structs.find(({ name }) => name === type);
    if (struct === undefined) throw new Error(`the layout of ${type} is not known`);
    layouts.set(type, laidOut(struct, layoutOf));
    return layouts.get(type);
  };
  for (const { name } of structs) layoutOf(name);
  return layouts;
}

// The calls of a library. The allocator is passed to none of them.
export function callsIn(source) {
  const rows = source.matchAll(
    /((?:^\/\/\/.*\n)*)^#\[unsafe\(no_mangle\)\]\npub extern "C" fn (\w+)\(([^)]*)\)/gm);
  return [...rows].map(([, comment, name, list]) => {
    const parameters = list.split(',').map((one) => one.trim())
      .filter((one) => one !== '' && one !== 'alloc: Global');
    return { name, comment: said(comment), parameters };
  });
}

function bodyOf(source, name) {
  const found = new RegExp(`^(?:pub(?:\\(crate\\))? )?fn ${name}\\([^]*?\n\\}\n`, 'm').exec(source);
  if (!found) throw new Error(`a function ${name} is not there any more`);
  return found[0];
}

function named(pairs, name) {
  const numbers = Object.fromEntries(
    pairs.map(([variant, number]) => [constantCase(variant), Number(number)]));
  if (pairs.length === 0) throw new Error(`the function ${name} has no numbers`);
  return numbers;
}

// A variant at the end of a pattern, or the first one of several.
const VARIANT = String.raw`::(\w+)(?:\([^():]*\)| \{[^{}]*\})?[),\s]*(?:\| [^=]*)?`;

// The numbers that a function tells for the variants of an enum: alone, as `Rule::Crew => 2`; as the
// first of several, as `Word::Node(node) => (1, node, 0)`; or as this field of a struct, as
// `Activity::Begin => BodyRow { doing: 2, ..at }`.
export function numbersIn(source, name, field) {
  const number = field
    ? String.raw`\w+ \{[^}]*?\b${field}: (\d+)` : String.raw`\(?(\d+)`;
  const arms = bodyOf(source, name).matchAll(new RegExp(`${VARIANT}=> ${number}`, 'g'));
  return named([...arms].map((arm) => [arm[1], arm[2]]), name);
}

// The variants that a function makes of numbers, as `0 => Ok(world.event(WorldEvent::Go(body)))`.
export function variantsIn(source, name) {
  const arms = bodyOf(source, name).matchAll(/(\d+) => .*::(\w+)\(/g);
  return named([...arms].map((arm) => [arm[2], arm[1]]), name);
}

// The words for the variants of an enum.
export function wordsIn(source, name) {
  const rows = source.matchAll(new RegExp(`\\b${name}::(\\w+) =>\\s*"([^"]*)"`, 'g'));
  return Object.fromEntries([...rows].map(([, variant, word]) => [constantCase(variant), word]));
}
