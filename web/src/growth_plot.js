// A plot of costs against n, both by their logarithms, with lines that grow as lg n, n and n lg n
// through the first cost.
import { makeSvg } from './dom.js';
import { grouped } from './numbers.js';

export const WIDTH = 640;
export const HEIGHT = 300;
const LEFT = 70;
const BOTTOM = 24;
const TOP = 44;
const RIGHT = 170;
const LINE = 13;

const BESIDE = [
  { words: 'lg n', at: (n) => Math.log2(n) },
  { words: 'n', at: (n) => n },
  { words: 'n lg n', at: (n) => n * Math.log2(n) },
];

// Where values of this list lie between two ends.
function scaleOf(values, from, to) {
  const [low, high] = [Math.log2(Math.min(...values)), Math.log2(Math.max(...values))];
  return (value) => from + ((to - from) * (Math.log2(value) - low)) / (high - low || 1);
}

const pathOf = (points) => points.map(([x, y], k) => `${k === 0 ? 'M' : 'L'}${x} ${y}`).join('');

// These heights, so far apart that a word fits at each.
function spread(heights) {
  const order = heights.map((_, k) => k).sort((one, other) => heights[other] - heights[one]);
  const placed = [...heights];
  order.forEach((k, at) => {
    if (at > 0) placed[k] = Math.min(placed[k], placed[order[at - 1]] - LINE);
  });
  return placed;
}

const textAt = (x, y, words, more = {}) => makeSvg('text', { x, y, ...more }, words);

// `rows` have n, 2 or more, and `costs`, each 1 or more; the first of these begins the lines.
export function plotOf(rows, names) {
  const [first] = rows;
  const besides = BESIDE.map(({ words, at }) => ({
    words, values: rows.map(({ n }) => (first.costs[0] * at(n)) / at(first.n)),
  }));
  const x = scaleOf(rows.map(({ n }) => n), LEFT, WIDTH - RIGHT);
  const all = [...rows.flatMap(({ costs }) => costs), ...besides.flatMap(({ values }) => values)];
  const y = scaleOf(all, HEIGHT - BOTTOM, TOP);
  const lines = [
    ...besides.map((beside) => ({ ...beside, name: 'beside' })),
    ...names.map((words, k) =>
      ({ words, values: rows.map(({ costs }) => costs[k]), name: `cost${k}` })),
  ];
  const ends = spread(lines.map(({ values }) => y(values.at(-1))));
  return [
    ...lines.map(({ values, name }) => makeSvg('path', {
      class: `growth ${name}`, d: pathOf(values.map((value, k) => [x(rows[k].n), y(value)])),
    })),
    ...lines.map(({ words, name }, k) =>
      textAt(WIDTH - RIGHT + 4, ends[k] + 4, words, { class: name })),
    ...rows.map(({ n }) =>
      textAt(x(n), HEIGHT - 6, grouped(n), { 'text-anchor': 'middle', class: 'beside' })),
    ...[Math.min(...all), Math.max(...all)].map((value) =>
      textAt(LEFT - 8, y(value) + 4, grouped(Math.round(value)),
        { 'text-anchor': 'end', class: 'beside' })),
  ];
}
