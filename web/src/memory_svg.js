// The picture of the memory as a file: processors, cells and arrows where they stand on the page.
import { byId, makeSvg } from './dom.js';
import { pictureOf, saveSvg, withStyles } from './styled_svg.js';
import { phrase } from './words.js';

const MARGIN = 8;

function boxOf(element, frame, radius) {
  const box = element.getBoundingClientRect();
  const styles = getComputedStyle(element);
  return makeSvg('rect', {
    x: box.left - frame.left, y: box.top - frame.top, width: box.width, height: box.height,
    rx: radius, fill: styles.backgroundColor, stroke: styles.borderTopColor,
    'stroke-width': styles.borderTopWidth,
    'stroke-dasharray': styles.borderTopStyle === 'dashed' ? '5 3' : 'none',
  });
}

// A text in the middle of its element, cut as it is there.
function textOf(element, frame) {
  const box = element.getBoundingClientRect();
  const styles = getComputedStyle(element);
  const size = parseFloat(styles.fontSize);
  const most = Math.floor(box.width / (0.5 * size));
  const text = element.textContent;
  return makeSvg('text', {
    x: box.left + box.width / 2 - frame.left, y: box.top + size - frame.top,
    'text-anchor': 'middle', 'font-size': size, 'font-weight': styles.fontWeight,
    'font-family': styles.fontFamily, fill: styles.color,
  }, text.length > most ? `${text.slice(0, most - 1)}…` : text);
}

const chipOf = (chip, frame) => [boxOf(chip, frame, 12), textOf(chip, frame)];
const cellOf = (cell, frame) =>
  [boxOf(cell, frame, 5), ...[...cell.children].map((part) => textOf(part, frame))];

// Who reads and writes the place of a conflict: its box cuts that.
function clashersInWords(picture) {
  const [place, , note] = picture.querySelector('.is-disputed')?.children ?? [];
  return place ? ` ${phrase('At {0}: {1}.', place.textContent, note.textContent)}` : '';
}

// The picture as the page has it now; nothing where it is out of sight.
export function memoryPicture(words = '') {
  const picture = document.querySelector('#lockstep .picture');
  if (!picture.checkVisibility()) return undefined;
  const frame = picture.getBoundingClientRect();
  const arrows = byId('arrows');
  const parts = [
    ...[...byId('strip').children].flatMap((chip) => chipOf(chip, frame)),
    ...[...picture.querySelectorAll('.cell')].flatMap((cell) => cellOf(cell, frame)),
    withStyles(arrows, arrows.cloneNode(true)),
  ];
  const group = makeSvg('g', { transform: `translate(${MARGIN} ${MARGIN})` }, ...parts);
  const [width, height] = [frame.width + 2 * MARGIN, frame.height + 2 * MARGIN];
  return pictureOf(width, height, [group], words && words + clashersInWords(picture));
}

export const saveMemory = (words) => saveSvg('memory.svg', memoryPicture(words));
