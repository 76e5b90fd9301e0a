// words_test.js PAGE: the texts of the page in its languages, in Node: each table has all of them
// with their parts, no source says a text in English alone, and the page has the tables.
import { readFileSync, readdirSync } from 'node:fs';
import { inflateRawSync } from 'node:zlib';
import { CHINESE } from '../src/chinese.js';
import { PROGRAM_SENTENCES, SENTENCES } from '../src/declared.js';
import { SPOKEN } from '../src/following.js';
import { FRENCH } from '../src/french.js';
import { GERMAN } from '../src/german.js';
import { LANGUAGES } from '../src/languages.js';
import { SPANISH } from '../src/spanish.js';
import { counted, phrase, speak } from '../src/words.js';
import { report } from './report.js';
import { textsOfModule, textsOfPage } from './texts.js';

const [pagePath] = process.argv.slice(2);
const { is, end } = report();

const TABLES = { de: GERMAN, fr: FRENCH, es: SPANISH, 'zh-Hans': CHINESE };
const TABLE_FILES = ['chinese.js', 'french.js', 'german.js', 'spanish.js'];

const folder = new URL('../src/', import.meta.url);
const read = (name) => readFileSync(new URL(name, folder), 'utf8');
const modules = readdirSync(folder)
  .filter((name) => name.endsWith('.js') && !TABLE_FILES.includes(name));

// What looks like words, and is none of the page's: programs, names for the browser and the core,
// classes of the style, and faults of the page itself, which come with words of the browser's.
const OTHERS = {
  'address.js': ['there is no text'],
  'adversary_panel.js': ['pardo 1\nrule crew\nprocs i < 2\nshared A[2]\ncode\nA[i] := i\n',
    'Enter'],
  'adversary_scene.js': ['the core tells no scene: 0'],
  'core.js': ['the page is out of memory', 'Told', 'Judgement', 'Scene'],
  'drafts.js': ['kaolinsilk drafts', 'kaolinsilk deleted drafts'],
  'event_words.js': ['Event'],
  'far.js': ['the thread of the core: 0'],
  'files.js': ['Files'],
  'gallery.js': ['; my program\npardo 1\nrule common\nconst n = 4\nprocs i < n\nshared A[n]\n' +
    'code\nA[i] := i               ; each processor writes its number\n'],
  'heat.js': ['kaolinsilk heat'],
  'keys.js': ['kaolinsilk keys', 'input, select, textarea', 'button, summary, a'],
  'language.js': ['kaolinsilk language'],
  'languages.js': ['English', 'Deutsch', 'Français', 'Español'],
  'leaving.js': ['kaolinsilk shown'],
  'lessons.js': ['said right'],
  'link.js': ['http:', 'https:'],
  'lockstep.js': ['said bad'],
  'main.js': ['pardo 1\nrule crew\nprocs i < 1\nshared s\ncode\ns := i\n'],
  'own_programs.js': ['Enter', 'Escape'],
  'plan_export.js': ['pramx replay 0 --workers 0 --plan plan.csv'],
  'program_view.js': ['clash next', 'current next'],
  'solved.js': ['kaolinsilk solved'],
  'structs.js': ['Status'],
  'tree.js': ['body worker00'],
  'tree_bars.js': ['block pass00'],
  'tree_circles.js': ['node pass0'],
  'worker_cards.js': ['card worker0 0'],
  'workers.js': ['current next', 'said bad'],
};

const exercises = new URL('../../exercises/', import.meta.url);

// The titles and the tasks of the exercises.
const textsOfExercises = () => readdirSync(exercises).filter((name) => name.endsWith('.exercise'))
  .flatMap((name) => {
    const text = readFileSync(new URL(name, exercises), 'utf8');
    const textsOf = (word) => [...text.matchAll(new RegExp(`^${word} (.*)$`, 'gm'))]
      .map(([, said]) => said.trim()).join(' ');
    return [textsOf('title'), textsOf('task')];
  });

function allTexts() {
  const asked = modules.flatMap((name) => textsOfModule(read(name)).asked);
  const sentences = [SENTENCES, PROGRAM_SENTENCES].flatMap((one) => Object.values(one));
  return new Set([...textsOfPage(read('page.html'), SPOKEN), ...asked, ...sentences,
    ...textsOfExercises()]);
}

const partsIn = (text) => [...new Set(text.match(/\{\d+\}/g))].sort().join();

function testTables() {
  const texts = allTexts();
  for (const [tag, table] of Object.entries(TABLES)) {
    for (const text of texts) {
      is(`${tag} has “${text}”`, Object.hasOwn(table, text), true);
      is(`${tag}: the parts of “${text}”`, partsIn(table[text] ?? ''), partsIn(text));
    }
    const spare = Object.keys(table).filter((text) => !texts.has(text));
    is(`${tag}: texts that nobody asks for`, spare.join(' | '), '');
  }
}

function testSources() {
  for (const name of modules) {
    const others = [...new Set(textsOfModule(read(name)).others)];
    is(`${name}: texts in English alone`, others.join(' | '), (OTHERS[name] ?? []).join(' | '));
  }
}

// What a source says of its texts is found there.
function testReading() {
  const { asked, others } = textsOfModule(
    "const a = phrase('One ' + 'text {0}', 'a part of it');\n" +
    "say(`${b ? counted(n, '{0} x', '{0} xs', c) : 'some words'} and more`); // phrase('none')\n" +
    "const d = /'/.test(e) ? english('it\\'s') : 'Over';\n" +
    "setText(byId('a'), isLost ? 'lost' : phrase('kept'));\n");
  is('texts that are asked for', asked.join(' | '), "One text {0} | {0} x | {0} xs | it's | kept");
  is('others', others.join(' | '), 'a part of it | some words | 0 and more | Over | lost');
  const page = '<p title="Its title">Some <b>bold</b>\n words<code>no words</code></p><input>';
  is('texts of a page', textsOfPage(page, ['title']).join(' | '),
    'bold | Some {0} words{1} | Its title');
}

function testPhrases() {
  is('English', phrase('{1} of {0}', 'b', '{0}'), '{0} of b');
  const words = ['{0} step', '{0} steps'];
  const told = Object.entries({ en: {}, ...TABLES }).map(([tag, table]) => {
    speak(tag, table);
    return [0, 1, 1024].map((count) => counted(count, ...words)).join(', ');
  });
  is('one and many', told.join('; '), '0 steps, 1 step, 1,024 steps; 0 Schritte, 1 Schritt, ' +
    '1,024 Schritte; 0 étape, 1 étape, 1,024 étapes; 0 pasos, 1 paso, 1,024 pasos; ' +
    '0 步, 1 步, 1,024 步');
  is('a text without an entry', phrase('No such text: {0}.', 1), 'No such text: 1.');
  speak('en', {});
}

// The page's maker packed the tables as they are now.
function testPage() {
  const page = readFileSync(pagePath, 'utf8');
  const [, packed] = /<script type="text\/plain" id="words">([^<]*)</.exec(page);
  const texts = JSON.parse(inflateRawSync(Buffer.from(packed, 'base64')).toString());
  is('languages of the page', Object.keys(texts).join(), LANGUAGES.map(({ tag }) => tag).join());
  for (const [tag, table] of Object.entries(TABLES)) {
    const found = Object.fromEntries(texts.en.map((text, k) => [text, texts[tag][k]]));
    is(`${tag} in the page`, Object.keys(found).length, Object.keys(table).length);
    is(`${tag}: texts of the page`, Object.keys(table)
      .filter((text) => found[text] !== table[text]).join(' | '), '');
  }
}

testReading();
testTables();
testSources();
testPhrases();
testPage();
end();
