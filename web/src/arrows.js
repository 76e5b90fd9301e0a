// Arrows between processors and cells: who reads and who writes which cell in the next step.
import { STATE } from './activity.js';
import { byId, fit, make, makeSvg, setAttribute, setText } from './dom.js';
import { STATUS, TARGET } from './kinds.js';

const MOST = 32;

function middle(element, frame, side) {
  const box = element.getBoundingClientRect();
  const y = side === 'top' ? box.top : box.bottom;
  return { x: box.left + box.width / 2 - frame.left, y: y - frame.top };
}

function arrow(kind, from, to, shift) {
  const path = `M ${from.x + shift} ${from.y} L ${to.x + shift} ${to.y}`;
  return makeSvg('path', { class: `arrow ${kind}`, d: path, 'marker-end': `url(#head-${kind})` });
}

function marker(kind) {
  const shape = { id: `head-${kind}`, viewBox: '0 0 8 8', refX: 7, refY: 4, orient: 'auto' };
  return makeSvg('marker', { ...shape, markerWidth: 7, markerHeight: 7 },
    makeSvg('path', { class: `head ${kind}`, d: 'M 0 0 L 8 4 L 0 8 z' }));
}

const clashes = (processor, fault) =>
  fault !== undefined && (processor === fault.first || processor === fault.second);

// `states` says of a program who is active.
function kindOfChip(processor, request, fault, states) {
  if (clashes(processor, fault)) return 'clash';
  if (states) return states[processor] === STATE.ACTIVE ? 'is-active' : 'stopped';
  return request?.status > STATUS.RUNS ? 'stopped' : '';
}

function arrowsOf(chip, request, boxOf, frame, isClash) {
  const found = [];
  const read = request.reads > 0 ? boxOf(request.reads - 1) : undefined;
  if (read) found.push(arrow('read', middle(read, frame, 'top'), middle(chip, frame), -3));
  const written = request.target === TARGET.CELL ? boxOf(request.number) : undefined;
  if (written) {
    const kind = isClash ? 'clash' : 'write';
    found.push(arrow(kind, middle(chip, frame), middle(written, frame, 'top'), 3));
  }
  return found;
}

// Draws them anew when the room for them changes: `onResize` shows the moment again.
export function openArrows(onResize) {
  const strip = byId('strip');
  const drawing = byId('arrows');
  let width = 0;
  new ResizeObserver(([{ contentRect }]) => {
    if (contentRect.width === width) return;
    width = contentRect.width;
    onResize();
  }).observe(strip.parentElement);
  return {
    // `asked` has the requests of each step that is shown; `range` is the window on the cells,
    // which stand in `list`.
    show(job, asked, { list, range, fault, states }) {
      const isShown = job.procs <= MOST;
      strip.hidden = !isShown;
      drawing.replaceChildren();
      if (!isShown) return;
      const chips = fit(strip, job.procs, () => make('li'));
      chips.forEach((chip, processor) => {
        setText(chip, `P${processor}`);
        setAttribute(chip, 'class', kindOfChip(processor, asked[0]?.[processor], fault, states));
      });
      const frame = drawing.getBoundingClientRect();
      const boxOf = (cell) => list.children[cell - range.first];
      drawing.append(makeSvg('defs', {}, marker('read'), marker('write'), marker('clash')));
      const drawn = asked.flatMap((requests, k) => requests.flatMap((request, processor) =>
        arrowsOf(chips[processor], request, boxOf, frame,
          k === asked.length - 1 && clashes(processor, fault))));
      const isClash = (path) => path.classList.contains('clash');
      drawing.append(...drawn.filter((path) => !isClash(path)), ...drawn.filter(isClash));
    },
  };
}
