// What the core's sources declare, as a module of the page.
import * as declared from './declared.js';

const IMPORT = /^import \{([^}]*)\} from '\.\/declared\.js';\n/m;

export const importsOf = (text) => IMPORT.exec(text)?.[1].match(/\w+/g) ?? [];

// What a module has of the sources must be there: the words that it imports, and names of theirs,
// as CODE.DONE.
function check(module, text) {
  for (const word of importsOf(text)) {
    if (!Object.hasOwn(declared, word)) throw new Error(`${module}.js: ${word} is not declared`);
    for (const [all, name] of text.matchAll(new RegExp(`\\b${word}\\.([A-Z_]+)\\b`, 'g'))) {
      if (Object.hasOwn(declared[word], name)) continue;
      throw new Error(`${module}.js: the core's sources do not declare ${all}`);
    }
  }
}

// A value as the page has it.
export const written = (value) => JSON.stringify(value).replace(/"(\w+)":/g, '$1:');

// Of all that is declared the module has what these modules import: texts by their names.
export function declaredModule(texts) {
  for (const [module, text] of texts) check(module, text);
  const words = new Set([...texts.values()].flatMap(importsOf));
  return [...words].sort().map((word) => `export const ${word} = ${written(declared[word])};\n`)
    .join('');
}
