// On paper the whole text stands in place of the text area, which would show what is in sight; and
// a drawing of the memory, whose arrows stay with its cells on paper of any width.
import { byId } from './dom.js';
import { memoryPicture } from './memory_svg.js';

const MOST_CHARACTERS = 100000;

// The heads of arrows have names of their own: those of the page are out of sight then.
function withOwnHeads(drawing) {
  for (const head of drawing.querySelectorAll('marker')) head.id += '-printed';
  for (const arrow of drawing.querySelectorAll('[marker-end]')) {
    const end = arrow.getAttribute('marker-end').replace(')', '-printed)');
    arrow.setAttribute('marker-end', end);
  }
  return drawing;
}

export function listenToPrinting(app) {
  window.addEventListener('beforeprint', () => {
    byId('printed').textContent = app.text.slice(0, MOST_CHARACTERS);
    document.documentElement.toggleAttribute('data-paper', true);
    const drawings = [memoryPicture()].filter(Boolean).map(withOwnHeads);
    byId('printed-memory').replaceChildren(...drawings);
    document.documentElement.toggleAttribute('data-paper', false);
  });
  window.addEventListener('afterprint', () => {
    byId('printed').textContent = '';
    byId('printed-memory').replaceChildren();
  });
}
