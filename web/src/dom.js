// Small helpers over the document. Text only ever enters as text, never as markup.
import { SPOKEN, followAttribute } from './following.js';

const SVG = 'http://www.w3.org/2000/svg';

export function byId(id) {
  return document.getElementById(id);
}

function fill(element, attributes, children) {
  for (const [name, value] of Object.entries(attributes)) {
    if (typeof value === 'function') element.addEventListener(name, value);
    else if (SPOKEN.includes(name)) followAttribute(element, name, value);
    else if (value !== false) element.setAttribute(name, value === true ? '' : value);
  }
  element.append(...children);
  return element;
}

// An element; an attribute that is a function is a listener, and one that is said is given by its
// English words.
export function make(tag, attributes = {}, ...children) {
  return fill(document.createElement(tag), attributes, children);
}

export function makeSvg(tag, attributes = {}, ...children) {
  return fill(document.createElementNS(SVG, tag), attributes, children);
}

// Sets a text where it differs, so that a live region speaks of changes alone.
export function setText(element, text) {
  if (element.textContent !== text) element.textContent = text;
}

export function setAttribute(element, name, value) {
  if (element.getAttribute(name) !== String(value)) element.setAttribute(name, value);
}

// Focus that would be lost goes to the part of the page that it was in, or else to the text.
function keepFocus(element, goes) {
  if (!goes.contains(document.activeElement)) return;
  (element.closest('[tabindex]') ?? byId('text')).focus({ preventScroll: true });
}

// Gives the parent exactly so many children, keeping those that are there (and their focus).
export function fit(parent, count, makeChild) {
  while (parent.children.length > count) {
    keepFocus(parent, parent.lastElementChild);
    parent.lastElementChild.remove();
  }
  while (parent.children.length < count) parent.append(makeChild(parent.children.length));
  return [...parent.children];
}

// A button that does nothing now keeps its focus: it is told apart, but not taken away.
export function setDisabled(button, isDisabled) {
  setAttribute(button, 'aria-disabled', String(isDisabled));
}

export function ignoreDisabled() {
  document.addEventListener('click', (event) => {
    if (!event.target.closest('[aria-disabled="true"]')) return;
    event.preventDefault();
    event.stopImmediatePropagation();
  }, true);
}

export function setHidden(element, isHidden) {
  if (isHidden && !element.hidden) keepFocus(element.parentElement, element);
  element.hidden = isHidden;
}

export function onClick(id, work) {
  byId(id).addEventListener('click', work);
}
