// Elements whose texts follow the language: those of the page itself, and those that are made once.
import { phrase, piecesOf } from './words.js';

// Attributes that are read or said.
export const SPOKEN = ['aria-label', 'title', 'label'];

// Tags of elements whose texts are no words of the page.
const OTHERS = ['SCRIPT', 'STYLE', 'NOSCRIPT', 'CODE'];

// By element and by attribute what writes it; that of its text is under ''.
const followers = new WeakMap();

function follow(element, name, write) {
  if (!followers.has(element)) followers.set(element, new Map());
  followers.get(element).set(name, write);
  return write;
}

const textWriter = (element, text, parts) =>
  follow(element, '', () => element.replaceChildren(...piecesOf(text, parts)));

const attributeWriter = (element, name, text) =>
  follow(element, name, () => element.setAttribute(name, phrase(text)));

// Gives an element this text, whose parts are elements.
export function followText(element, text, ...parts) {
  textWriter(element, text, parts)();
  return element;
}

export function followAttribute(element, name, text) {
  attributeWriter(element, name, text)();
}

const isSaid = (text) => /\p{L}{2}/u.test(text);

// The text of an element, in which its children are parts.
function textOf(element) {
  let parts = 0;
  const pieces = [...element.childNodes].map((node) => {
    if (node.nodeType === Node.TEXT_NODE) return node.data;
    parts += 1;
    return `{${parts - 1}}`;
  });
  return pieces.join('').replace(/\s+/g, ' ').trim();
}

// Has an element of the page, and all in it, follow the language from now on.
export function followPage(element) {
  if (OTHERS.includes(element.tagName)) return;
  for (const name of SPOKEN) {
    if (element.hasAttribute(name)) attributeWriter(element, name, element.getAttribute(name));
  }
  const text = textOf(element);
  const children = [...element.children];
  if (isSaid(text)) textWriter(element, text, children);
  children.forEach(followPage);
}

// Writes all of them anew.
export function writeFollowers() {
  for (const element of document.querySelectorAll('*')) {
    for (const write of followers.get(element)?.values() ?? []) write();
  }
}
