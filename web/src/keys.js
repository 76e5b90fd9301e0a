// Keys of the view that is shown, from anywhere on the page where nothing else takes them. Those
// without Control can be switched off, which the browser keeps.
import { byId } from './dom.js';

const KEY = 'kaolinsilk keys';
const OFF = 'off';

function areOff() {
  try {
    return localStorage.getItem(KEY) === OFF;
  } catch {
    return false;
  }
}

// A browser that keeps nothing has them off as long as the page lasts.
function keep(isOff) {
  try {
    if (isOff) localStorage.setItem(KEY, OFF);
    else localStorage.removeItem(KEY);
  } catch {
    // The control itself says what is chosen.
  }
}

const takesKeys = (target) => target.closest('input, select, textarea') !== null;
const takesSpace = (target) => target.closest('button, summary, a') !== null;

// The key, and what Control and z or y are for; nothing of other keys with Control and the like.
function nameOf({ key, shiftKey, ctrlKey, metaKey, altKey }) {
  if (!ctrlKey && !metaKey && !altKey) return key;
  if (altKey || !/^[zy]$/i.test(key)) return '';
  return shiftKey || /y/i.test(key) ? 'redo' : 'undo';
}

// `keysInUse` gives what each key does, and under `undo` and `redo` what Control and z or y do.
export function listenToKeys(keysInUse) {
  const single = byId('single-keys');
  single.checked = !areOff();
  single.addEventListener('change', () => keep(!single.checked));
  document.addEventListener('keydown', (event) => {
    if (event.defaultPrevented || takesKeys(event.target)) return;
    if (event.key === ' ' && takesSpace(event.target)) return;
    if (!single.checked && !event.ctrlKey && !event.metaKey) return;
    const keys = keysInUse();
    const name = nameOf(event);
    if (!Object.hasOwn(keys, name)) return;
    event.preventDefault();
    keys[name]();
  });
}
