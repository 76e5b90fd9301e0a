// On a phone the button of a step stays in sight, and beside it the line that is at work.
import { setText } from './dom.js';
import { grouped, shortened } from './numbers.js';
import { lineOf } from './text_lines.js';
import { phrase } from './words.js';

const NARROW = '(max-width: 40rem)';
const MOST_CHARACTERS = 80;

// The first of the lines that are marked, as it stands in the text.
export function atWorkInWords(marks, text) {
  if (marks.size === 0) return '';
  const line = Math.min(...marks.keys());
  const { badge } = marks.get(line);
  const words = shortened(lineOf(text, line).split(';', 1)[0].trim(), MOST_CHARACTERS);
  const said = `${grouped(line)}: ${words}${badge && ` (${badge})`}`;
  return marks.size === 1 ? said : phrase('{0}, and other lines', said);
}

// Gives what shows the marks of a text. It is out of sight on a wide screen, and is not made there.
export function openAtWork() {
  const places = document.querySelectorAll('.at-work');
  const narrow = matchMedia(NARROW);
  let marked = [new Map(), ''];
  const show = () => {
    if (!narrow.matches) return;
    const words = atWorkInWords(...marked);
    for (const place of places) setText(place, words);
  };
  narrow.addEventListener('change', show);
  return (marks, text) => {
    marked = [marks, text];
    show();
  };
}
