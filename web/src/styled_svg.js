// A drawing as a file by itself: its colours as the page has them now, and its words below it.
import { makeSvg } from './dom.js';

const PROPERTIES = ['fill', 'stroke', 'stroke-width', 'stroke-dasharray', 'opacity', 'font-size',
  'font-weight', 'font-family', 'text-anchor', 'dominant-baseline'];
const LETTER = 7;
const LINE = 18;

// Writes the styles that the page gives these elements into the elements of a copy.
export function withStyles(original, copy) {
  const styles = getComputedStyle(original);
  for (const name of PROPERTIES) copy.setAttribute(name, styles.getPropertyValue(name));
  copy.removeAttribute('class');
  [...copy.children].forEach((child, k) => withStyles(original.children[k], child));
  return copy;
}

// A Chinese character is as wide as two letters, and a line may end after it.
const WIDE = /[\u3000-\uffef]/g;
const PIECE = /[\u3000-\uffef] ?|[^ \u3000-\uffef]+ ?| /g;
const lettersIn = (text) => text.trim().length + (text.match(WIDE) ?? []).length;

function linesOf(words, most) {
  const lines = [''];
  for (const piece of words.match(PIECE) ?? []) {
    if (lettersIn(lines.at(-1)) + lettersIn(piece) >= most) lines.push('');
    lines.push(lines.pop() + piece);
  }
  return lines.map((line) => line.trim());
}

// A picture of this size with these parts, on the page's ground, and its words below.
export function pictureOf(width, height, parts, words) {
  const { color, backgroundColor, fontFamily } = getComputedStyle(document.body);
  const lines = linesOf(words, Math.floor(width / LETTER));
  const whole = height + LINE * (lines.length + 1);
  const style = { fill: color, 'font-size': 13, 'font-family': fontFamily };
  const said = lines.map((line, k) =>
    makeSvg('text', { x: 8, y: height + LINE * (k + 1), ...style }, line));
  return makeSvg('svg', { viewBox: `0 0 ${width} ${whole}`, width, height: whole },
    makeSvg('rect', { width, height: whole, fill: backgroundColor }), ...parts, ...said);
}

export function save(name, type, text) {
  const address = URL.createObjectURL(new Blob([text], { type }));
  const anchor = document.createElement('a');
  anchor.href = address;
  anchor.download = name;
  anchor.click();
  setTimeout(() => URL.revokeObjectURL(address), 10000);
}

export const saveSvg = (name, drawing) =>
  save(name, 'image/svg+xml', new XMLSerializer().serializeToString(drawing));
