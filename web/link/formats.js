// formats.js FILE [--check]: writes into this file what the core's sources declare; with --check it
// tells whether that stands there.
import { readFileSync, writeFileSync } from 'node:fs';
import {
  JOB_FAULT, LIMIT, MODELS, PROGRAM_FAULT, RULES, TEXT_FAULT, calls, cells, codes, layouts, limits,
} from './declared.js';

// NOT_ASCII becomes NotAscii, as the sources have it.
const camelCase = (name) => name.toLowerCase().replaceAll(/(?:^|_)(\w)/g,
  (_, letter) => letter.toUpperCase());

const grouped = (number) => new Intl.NumberFormat('en').format(number);

// A sentence within another one.
const within = (sentence) => sentence.replace(/^./, (first) => first.toLowerCase())
  .replace(/\.$/, '');

const listed = (pairs) => pairs.map(([number, word]) => `${number} ${word}`).join(', ');
const faults = (numbers) =>
  listed(Object.entries(numbers).map(([name, number]) => [number, camelCase(name)]));

const rowsOfCodes = codes.map(({ name, value, comment }) => `| ${value} | ${name} | ${comment} |`);

const numbers = [
  `\`fault\` of a text of the machine: ${faults(TEXT_FAULT)}`,
  `\`fault\` of a program: ${faults(PROGRAM_FAULT)}; of its compilation: ${faults(JOB_FAULT)}`,
  `\`rule\`: ${listed(Object.entries(RULES))}`,
  `\`needs\`: ${listed(Object.entries(MODELS))}`,
  `\`kind\` of cells: ${listed(cells.map(({ value, comment }) => [value, within(comment)]))}`,
  ...limits.map(({ name, comment }) => `\`${name}\`: ${grouped(LIMIT[name])}. ${comment}`),
];

// The structs that calls take, each after those that are its fields.
function structsInOrder() {
  const found = new Set();
  const find = (name) => {
    const { fields } = layouts.get(name) ?? {};
    if (!fields || found.has(name)) return;
    for (const { type } of fields) find(type);
    found.add(name);
  };
  const types = calls.flatMap(({ parameters }) => parameters.map((one) => /(\w+)\]?$/.exec(one)[1]));
  for (const type of types) find(type);
  return [...found].map((name) => layouts.get(name));
}

function structInWords({ name, size, fields }) {
  const places = fields.map(({ name: field, type, offset }) =>
    (type === 'u32' ? `${offset} ${field}` : `${offset} ${field} ${type}`));
  return `\`${name}\`, ${size} bytes: ${places.join(', ')}`;
}

const signatureOf = ({ name, parameters }) => `\`${name}(${parameters.join(', ')})\``;

const items = (lines) => lines.map((line) => `- ${line}\n`).join('');

const declared = `# What the sources of the page's core declare

tools/page writes it.

## Codes

| code | name | means |
|---|---|---|
${rowsOfCodes.join('\n')}

## Numbers

${items(numbers)}
## Structs

What a field means stands at its struct, in \`crates/page_core/src\`. Before each field stand so many bytes; one without a type is a u32.

${items(structsInOrder().map(structInWords))}
## Calls

${items(calls.map(signatureOf))}`;

const [path, how] = process.argv.slice(2);
if (how !== '--check') {
  writeFileSync(path, declared);
} else if (readFileSync(path, 'utf8') !== declared) {
  console.error(`${path} does not say what the sources declare: tools/page --formats writes it`);
  process.exitCode = 1;
}
