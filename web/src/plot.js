// A plot of the steps: how many processors are at work, how many read a cell, how many write one.
import { byId, makeSvg, setAttribute, setText } from './dom.js';
import { grouped } from './numbers.js';
import { phrase } from './words.js';

const HEIGHT = 100;
const PARTS = [
  { name: 'running', pathOf: shapeOf },
  { name: 'reading', pathOf: barsOf, left: 0.1, width: 0.4 },
  { name: 'writing', pathOf: barsOf, left: 0.5, width: 0.4 },
];

// A shape with a step for each, whose edge is drawn.
function shapeOf(list, procs, { name }) {
  const tops = list.map((row) => `V${HEIGHT - (HEIGHT * row[name]) / procs}h1`);
  return `M0 ${HEIGHT}${tops.join('')}V${HEIGHT}z`;
}

// Bars of one kind, as one path.
function barsOf(list, procs, { name, left, width }) {
  return list.map((row, k) => {
    const height = (HEIGHT * row[name]) / procs;
    return row[name] === 0 ? '' : `M${k + left} ${HEIGHT}v${-height}h${width}v${height}z`;
  }).join('');
}

// What the steps from this one on do. How many are at work, or active in a line, stands above.
function stepsInWords(step, steps, row) {
  if (!row) return '';
  if (steps > 1) {
    return phrase('Steps {0} to {1}.', grouped(step + 1), grouped(step + steps));
  }
  const { reading, writing } = row;
  return phrase('Step {0}: {1} read a cell, {2} write one.', grouped(step + 1), grouped(reading),
    grouped(writing));
}

// `onStep` hears the step to go to.
export function openPlot(onStep) {
  const plot = byId('plot');
  const slider = byId('plot-step');
  const paths = PARTS.map(({ name }) => makeSvg('path', { class: `bars ${name}` }));
  const now = makeSvg('rect', { class: 'now', y: 0, width: 1, height: HEIGHT });
  plot.append(...paths, now);
  let shown = { first: 0, list: [] };

  plot.addEventListener('click', (event) => {
    const { left, width } = plot.getBoundingClientRect();
    const at = Math.floor(((event.clientX - left) / width) * shown.list.length);
    onStep(shown.first + Math.max(0, Math.min(at, shown.list.length - 1)));
  });
  slider.addEventListener('input', () => onStep(Number(slider.value)));

  return {
    // The steps about those that are shown, if they are told.
    show({ step, steps, last, procs }, told) {
      slider.max = last;
      slider.value = step;
      setAttribute(slider, 'aria-valuetext', phrase('after step {0} of {1}', step, last));
      if (!told) return;
      const { first, list } = told;
      if (list !== shown.list) {
        setAttribute(plot, 'viewBox', `0 0 ${Math.max(list.length, 1)} ${HEIGHT}`);
        paths.forEach((path, k) => path.setAttribute('d', PARTS[k].pathOf(list, procs, PARTS[k])));
      }
      shown = told;
      setAttribute(now, 'x', step - first);
      setAttribute(now, 'width', steps);
      setText(byId('plot-said'), stepsInWords(step, steps, list[step - first]));
      setText(byId('plot-range'), list.length === 0 ? '' :
        phrase('steps {0} to {1}', grouped(first + 1), grouped(first + list.length)));
    },
  };
}
