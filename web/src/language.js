// The language of the page: the one that was chosen in the menu, which the browser keeps, or else
// the first of the browser's that the page has.
import { byId, make } from './dom.js';
import { followPage, writeFollowers } from './following.js';
import { LANGUAGES } from './languages.js';
import { ENGLISH, language, speak } from './words.js';

const KEY = 'kaolinsilk language';

function kept() {
  try {
    return localStorage.getItem(KEY);
  } catch {
    return null;
  }
}

function keep(tag) {
  try {
    localStorage.setItem(KEY, tag);
  } catch {
    // The menu itself says what is chosen.
  }
}

const familyOf = (tag) => tag.toLowerCase().split('-', 1)[0];

function preferred() {
  const wanted = [kept(), ...navigator.languages].filter(Boolean);
  const found = wanted.map((one) => LANGUAGES.find(({ tag }) => familyOf(tag) === familyOf(one)));
  return found.find(Boolean)?.tag ?? ENGLISH;
}

// The table of a language, out of the texts of all, which are in one order.
const tableOf = (texts, tag) =>
  Object.fromEntries(texts[ENGLISH].map((text, k) => [text, texts[tag][k]]));

// `readTexts` promises the texts of all languages.
async function turnTo(tag, readTexts) {
  if (tag === language()) return;
  speak(tag, tag === ENGLISH ? {} : tableOf(await readTexts(), tag));
  document.documentElement.lang = tag;
  writeFollowers();
}

// Opens the menu, and speaks the first language. `onChange` hears of each other one.
export async function openLanguage(readTexts, onChange) {
  const menu = byId('language');
  menu.append(...LANGUAGES.map(({ tag, name }) => make('option', { value: tag, lang: tag }, name)));
  followPage(document.documentElement);
  menu.value = preferred();
  menu.addEventListener('change', async () => {
    keep(menu.value);
    await turnTo(menu.value, readTexts);
    onChange();
  });
  await turnTo(menu.value, readTexts);
}
