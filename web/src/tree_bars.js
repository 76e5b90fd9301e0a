// The nodes of a large tree: bars that lie on each other, so that even narrow ones show their
// colour. The bars of one colour are one path, since two thousand elements take long to lay out.
import { makeSvg, setAttribute } from './dom.js';
import { passOfPhase } from './phases.js';
import { HEIGHT, TOP, depthOf, middleOf, wideOf } from './tree_shape.js';

const LEAST_EDGED = 6;
const KINDS = ['', ' edged', ' spare'];
const PASSES = 4;

function kindOf(job, node) {
  if (node - job.leaves >= job.procs) return 2;
  return wideOf(node) > LEAST_EDGED ? 1 : 0;
}

export function barsOf(job) {
  const height = depthOf(job.leaves);
  const tall = (HEIGHT - TOP) / (height + 1);
  const top = (node) => TOP + depthOf(node) * tall;
  const paths = Array.from({ length: PASSES * KINDS.length }, (_, k) =>
    makeSvg('path', { class: `block pass${k % PASSES}${KINDS[Math.floor(k / PASSES)]}` }));
  const barOf = (node) => {
    const wide = wideOf(node);
    return `M${middleOf(node) - wide / 2} ${top(node)}h${wide}v${tall}h${-wide}z`;
  };
  return {
    parts: [makeSvg('g', { class: 'nodes' }, ...paths)],
    top,
    show(phases, before) {
      if (phases.every((phase, node) => phase === before[node])) return;
      const bars = paths.map(() => '');
      for (let node = 1; node < phases.length; node += 1) {
        bars[PASSES * kindOf(job, node) + passOfPhase(phases[node])] += barOf(node);
      }
      paths.forEach((path, k) => setAttribute(path, 'd', bars[k]));
    },
    // The node that is pointed at, and what is drawn of it and others.
    nodeAt(target, { x, y }) {
      const depth = Math.floor((y - TOP) / tall);
      if (!paths.includes(target) || depth < 0 || depth > height) return undefined;
      return { node: 2 ** depth + Math.floor(x / wideOf(2 ** depth)), drawn: target };
    },
  };
}
