// Cells as a row of boxes of one size, a window of them at a time.
import { byId, fit, make, setAttribute, setText } from './dom.js';
import { openWindow } from './window.js';
import { english } from './words.js';

const IN_SIGHT = 64;
const SIGHT = {
  from: english('from cell {0}'),
  earlier: english('earlier cells'),
  later: english('later cells'),
};

function makeBox() {
  return make('li', { class: 'cell' },
    make('span', { class: 'cell-number' }),
    make('span', { class: 'cell-value' }),
    make('span', { class: 'cell-note' }));
}

// What stands on the box of a cell: its number, or its name. An array begins a row.
export function labelOf({ source }, cell) {
  return source
    ? { label: source.nameOfCell(cell), isFirst: source.isFirst(cell) }
    : { label: String(cell), isFirst: false };
}

// A note is cut where the box ends; it is whole in the box's title.
function showBox(box, cell, { label, isFirst, value, note, kind = '' }) {
  setAttribute(box, 'class', `cell ${kind}${isFirst ? ' is-first' : ''}`);
  setAttribute(box, 'data-cell', cell);
  const [number, held, notes] = box.children;
  setText(number, label);
  setText(held, String(value));
  setText(notes, note);
  setAttribute(notes, 'title', note);
}

// A row of boxes in the element of this id. `boxOf(cell)` gives a cell's value, note and class.
export function openCells(id, label, onMove) {
  const sight = openWindow(SIGHT, IN_SIGHT, onMove);
  const list = make('ol', { class: 'cells', 'aria-label': label });
  byId(id).append(sight.bar, list);
  return {
    list,
    // Shows so many cells, and tells which are in sight.
    show(count, boxOf) {
      const range = sight.range(count);
      fit(list, range.length, makeBox).forEach((box, k) =>
        showBox(box, range.first + k, boxOf(range.first + k)));
      return range;
    },
  };
}
