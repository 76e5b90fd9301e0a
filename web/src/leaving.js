// What was shown when the page went, for the page when it is loaded anew in the same tab: its
// address follows a moment after each change, and has no long text.
import { readShown, writeShown } from './address.js';

const KEY = 'kaolinsilk shown';

// At how many of the last addresses it is shown again. A browser that loads a page anew may do so
// at one before the last, since it hears of an address a moment later; one that comes back to a
// page does so at its last. A link is opened otherwise.
const COUNTED = { reload: Infinity, back_forward: 1 };

// Keeps what is shown, of which draft, and at which addresses, the last one first.
export function keepShown(shown, examples, { draft, addresses }) {
  const kept = { ...writeShown(shown, examples), draft, addresses };
  try {
    sessionStorage.removeItem(KEY);
    sessionStorage.setItem(KEY, JSON.stringify(kept));
  } catch {
    // A browser that keeps nothing shows what the address says.
  }
}

// What is to be shown again at this address, and of which draft; nothing where it was opened.
export async function shownAgain(hash, examples) {
  const [{ type } = {}] = performance.getEntriesByType('navigation');
  try {
    const kept = JSON.parse(sessionStorage.getItem(KEY));
    const isThere = kept.addresses.slice(0, COUNTED[type] ?? 0).includes(hash);
    return isThere ? { shown: await readShown(kept, examples), draft: kept.draft } : undefined;
  } catch {
    return undefined;
  }
}
