// A page of the documents as elements: its headings, paragraphs, lists, tables and code, and in
// lines code, stress and links. A link to another document is its words.
import { make } from './dom.js';

const INLINE = /`([^`]+)`|\*\*([^*]+)\*\*|\*([^*]+)\*|\[([^\]]+)\]\(([^)]+)\)/;
const HEADING = /^(#+) (.*)$/;
const CODE = /^ {4}/;
const ITEM = /^- /;
const ROW = /^\|/;
const RULER = /^[|\- :]+$/;
const OUTSIDE = /^https:/;

function partOf([, code, strong, stressed, words, address]) {
  if (code !== undefined) return [make('code', {}, code)];
  if (strong !== undefined) return [make('strong', {}, ...inline(strong))];
  if (stressed !== undefined) return [make('em', {}, stressed)];
  return OUTSIDE.test(address) ? [make('a', { href: address }, ...inline(words))] : inline(words);
}

function inline(text) {
  const found = INLINE.exec(text);
  if (!found) return [text.replaceAll('&nbsp;', '\u00a0').replaceAll('\\|', '|')];
  const rest = text.slice(found.index + found[0].length);
  return [text.slice(0, found.index), ...partOf(found), ...inline(rest)];
}

// The cells of a row; a bar in a cell is written `\|`.
const cellsOf = (row) => row.slice(1, -1).split(/(?<!\\)\|/).map((cell) => cell.trim());

function tableOf(lines) {
  const [head, ...rows] = lines.filter((line) => !RULER.test(line)).map(cellsOf);
  const rowOf = (tag, cells) =>
    make('tr', {}, ...cells.map((cell) => make(tag, {}, ...inline(cell))));
  return make('table', {}, rowOf('th', head), ...rows.map((cells) => rowOf('td', cells)));
}

function blockOf(lines) {
  const [first] = lines;
  const heading = HEADING.exec(first);
  if (heading) return make(heading[1].length > 2 ? 'h4' : 'h3', {}, ...inline(heading[2]));
  if (CODE.test(first)) {
    return make('pre', {}, lines.map((line) => line.replace(CODE, '')).join('\n'));
  }
  if (ROW.test(first)) return tableOf(lines);
  if (!ITEM.test(first)) return make('p', {}, ...inline(lines.join(' ')));
  return make('ul', {}, ...lines.map((line) => make('li', {}, ...inline(line.replace(ITEM, '')))));
}

// Blocks stand apart by empty lines; code keeps its own.
export function elementsOf(text) {
  const blocks = text.split(/\n\n+/).map((block) => block.split('\n').filter(Boolean));
  return blocks.filter((lines) => lines.length > 0).map(blockOf);
}
