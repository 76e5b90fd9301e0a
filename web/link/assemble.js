// assemble.js CORE.wasm EXAMPLES EXERCISES OUT.html: puts the page into one file. Debian's esbuild makes one
// script of the modules of src/.
import { execFileSync } from 'node:child_process';
import { createHash } from 'node:crypto';
import { mkdtempSync, readFileSync, readdirSync, rmSync, writeFileSync } from 'node:fs';
import { tmpdir } from 'node:os';
import { dirname, join } from 'node:path';
import { fileURLToPath } from 'node:url';
import { deflateRawSync } from 'node:zlib';
import { CHINESE } from '../src/chinese.js';
import { FRENCH } from '../src/french.js';
import { GERMAN } from '../src/german.js';
import { LANGUAGES } from '../src/languages.js';
import { SPANISH } from '../src/spanish.js';
import { declaredModule } from './declared_module.js';

const source = join(dirname(fileURLToPath(import.meta.url)), '..', 'src');
const read = (name) => readFileSync(join(source, name), 'utf8');

// Names and values stay, and no line says where a module was: the same modules give the same bytes.
const BUNDLING = ['--bundle', '--minify', '--format=esm', '--target=es2022', '--charset=utf8',
  '--log-level=warning'];

// The modules as texts. What the core's sources declare stands in the place of the module that
// reads them.
function modules() {
  const names = readdirSync(source).filter((name) => name.endsWith('.js'));
  const texts = new Map(names.map((name) => [name.replace(/\.js$/, ''), read(name)]));
  texts.delete('declared');
  return texts.set('declared', declaredModule(texts));
}

// One script for each of these modules, of it and of those that it imports.
function bundlesOf(...names) {
  const folder = mkdtempSync(join(tmpdir(), 'page-'));
  try {
    for (const [name, text] of modules()) writeFileSync(join(folder, `${name}.js`), text);
    return names.map((name) =>
      execFileSync('esbuild', [`${name}.js`, ...BUNDLING], { cwd: folder, encoding: 'utf8' }));
  } finally {
    rmSync(folder, { recursive: true });
  }
}

const packed = (bytes) => deflateRawSync(bytes, { level: 9 }).toString('base64');

// Programs of `pardo`, and then texts of the machine, which have their names without an end.
function examplesOf(folder) {
  const names = readdirSync(folder).sort();
  return ['.pardo', '.pram'].flatMap((end) => names.filter((name) => name.endsWith(end)))
    .map((name) => ({
      name: name.replace(/\.pram$/, ''),
      text: readFileSync(join(folder, name), 'utf8'),
    }));
}

// The exercises in the order of their table.
function exercisesOf(folder) {
  const rows = readFileSync(join(folder, 'README.md'), 'utf8').matchAll(/^\|\d+\|`(\w+)`\|/gm);
  const names = [...rows].map(([, name]) => name);
  const files = readdirSync(folder).filter((name) => name.endsWith('.exercise'));
  if (files.sort().join() !== names.map((name) => `${name}.exercise`).sort().join()) {
    throw new Error(`the table of ${folder}/README.md has other exercises than the folder`);
  }
  return names.map((name) =>
    ({ name, text: readFileSync(join(folder, `${name}.exercise`), 'utf8') }));
}

// Sections of the documents, by their headings.
const SECTIONS = {
  'PARDO.md': ['Reference', 'Slips'],
  'LANGUAGE.md': ['The machine', 'Rules of writing', 'Models'],
};

function documentsOf(folder) {
  return Object.entries(SECTIONS).flatMap(([name, titles]) => {
    const parts = readFileSync(join(folder, name), 'utf8').split(/^(?=## )/m);
    return titles.map((title) => {
      const found = parts.find((part) => part.startsWith(`## ${title}\n`));
      if (found === undefined) throw new Error(`${name} has no section ${title}`);
      return found;
    });
  }).join('\n');
}

// By language its texts, in one order.
function textsOfLanguages() {
  const tables = { de: GERMAN, fr: FRENCH, es: SPANISH, 'zh-Hans': CHINESE };
  const texts = Object.keys(GERMAN).sort();
  return Object.fromEntries(LANGUAGES.map(({ tag }) =>
    [tag, texts.map((text) => tables[tag]?.[text] ?? text)]));
}

const hash = (text) => `'sha256-${createHash('sha256').update(text).digest('base64')}'`;

// No resource from outside, and no script or style but the page's own; its thread is made of the
// page's own text, too.
const policyOf = (style, script) =>
  `default-src 'none'; img-src data:; style-src ${hash(style)}; ` +
  `script-src ${hash(script)} 'wasm-unsafe-eval'; worker-src blob:; base-uri 'none'; ` +
  "form-action 'none'";

const [core, examples, exercises, out] = process.argv.slice(2);
const style = `\n${read('style.css')}`;
const [script, thread] = bundlesOf('main', 'far_core');
const parts = {
  POLICY: policyOf(style, script),
  STYLE: style,
  EXAMPLES: packed(JSON.stringify(examplesOf(examples))),
  EXERCISES: packed(JSON.stringify(exercisesOf(exercises))),
  DOCUMENTS: packed(documentsOf(join(source, '..', '..', 'docs'))),
  WORDS: packed(JSON.stringify(textsOfLanguages())),
  FAR: packed(thread),
  CORE: packed(readFileSync(core)),
  PAGE: script,
};
const page = read('page.html').replace(/\/\*([A-Z]+)\*\//g, (_, name) => parts[name]);
writeFileSync(out, page);
