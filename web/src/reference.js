// The reference of the language and of the machine, as the documents have it.
import { byId } from './dom.js';
import { elementsOf } from './markdown.js';

// `read` gives the text, which is asked for once.
export function openReference(read) {
  const panel = byId('reference');
  panel.addEventListener('toggle', async () => {
    const text = byId('reference-text');
    if (!panel.open || text.children.length > 0) return;
    text.replaceChildren(...elementsOf(await read()));
  });
}
