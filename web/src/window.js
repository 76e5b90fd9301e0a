// A window on a long list: which part of it is in sight, and the bar that moves it.
import { make, setDisabled, setHidden, setText } from './dom.js';
import { followText } from './following.js';
import { grouped, numberWithin } from './numbers.js';
import { phrase } from './words.js';

// `names` are the texts of its controls; the first element has the number `least`. `onMove` hears
// which element is the first in sight.
export function openWindow(names, size, onMove, least = 0) {
  let first = least;
  let end = least;
  const from = make('input', { type: 'number', min: least, value: least });
  const earlier = make('button', {
    type: 'button', 'aria-label': names.earlier, click: () => moveTo(first - size),
  }, '◀');
  const later = make('button', {
    type: 'button', 'aria-label': names.later, click: () => moveTo(first + size),
  }, '▶');
  const said = make('span');
  const bar = make('div', { class: 'bar', hidden: true }, earlier, later,
    followText(make('label'), names.from, from), said);
  from.addEventListener('change', () => moveTo(numberWithin(from.value, least, end - 1, first)));

  function moveTo(element) {
    first = Math.max(least, Math.min(element, end - 1));
    onMove(first);
  }

  return {
    bar,
    // The part in sight of a list of so many elements, from `start` on if it is given.
    range(count, start = first, isWhole = count <= size) {
      end = count + least;
      first = isWhole ? least : Math.min(start, Math.max(end - 1, least));
      const last = isWhole ? end : Math.min(first + size, end);
      setHidden(bar, isWhole);
      if (isWhole) return { first, length: last - first };
      from.value = first;
      from.max = end - 1;
      setText(said, phrase('to {0} of {1}', grouped(last - 1), grouped(count)));
      setDisabled(earlier, first === least);
      setDisabled(later, last === end);
      return { first, length: last - first };
    },
    // Shows this element.
    reveal(element) {
      if (element < first || element >= first + size) first = Math.max(element, least);
    },
  };
}
