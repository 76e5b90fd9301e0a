// The nodes of a small tree: circles with edges, and with their phases where there is room.
import { makeSvg, setAttribute, setText } from './dom.js';
import { passOfPhase } from './phases.js';
import { BOTTOM, HEIGHT, TOP, WIDTH, depthOf, middleOf } from './tree_shape.js';

const LEAST_NAMED = 9;

const edgeOf = (y, node) =>
  `M${middleOf(node)} ${y(node)}L${middleOf(node >> 1)} ${y(node >> 1)}`;

function makeEdges(leaves, y) {
  const edges = Array.from({ length: 2 * leaves - 2 }, (_, k) => edgeOf(y, k + 2));
  return makeSvg('path', { class: 'edges', d: edges.join('') });
}

function makeNode(node, y, radius, isNamed) {
  const at = { x: middleOf(node), y };
  const phase = isNamed ? [makeSvg('text', at)] : [];
  return makeSvg('g', { 'data-node': node },
    makeSvg('circle', { cx: at.x, cy: at.y, r: radius }), ...phase);
}

function makeLeafNames({ leaves, procs }, bottom) {
  const names = Array.from({ length: procs }, (_, processor) => {
    const node = leaves + processor;
    return makeSvg('text', { x: middleOf(node), y: bottom(node) + 10 }, `P${processor}`);
  });
  return makeSvg('g', { class: 'leaf-names' }, ...names);
}

function showNode(job, drawn, node, phase) {
  const kind = `node pass${passOfPhase(phase)}`;
  setAttribute(drawn, 'class', node - job.leaves >= job.procs ? `${kind} spare` : kind);
  if (drawn.children.length > 1) setText(drawn.children[1], String(phase));
}

// Only what changes is drawn anew.
export function circlesOf(job) {
  const { leaves } = job;
  const height = depthOf(leaves);
  const radius = Math.max(1.5, Math.min(17, (WIDTH / leaves) * 0.4));
  const isNamed = radius >= LEAST_NAMED;
  const y = (node) =>
    TOP + (height === 0 ? 0.5 : depthOf(node) / height) * (HEIGHT - TOP - BOTTOM);
  const nodes = Array.from({ length: 2 * leaves - 1 }, (_, k) =>
    makeNode(k + 1, y(k + 1), radius, isNamed));
  const names = isNamed ? [makeLeafNames(job, (node) => y(node) + radius)] : [];
  return {
    parts: [makeEdges(leaves, y), makeSvg('g', { class: 'nodes' }, ...nodes), ...names],
    top: (node) => y(node) - radius,
    show(phases, before) {
      nodes.forEach((drawn, k) => {
        if (phases[k + 1] !== before[k + 1]) showNode(job, drawn, k + 1, phases[k + 1]);
      });
    },
    // The node that is pointed at, and what is drawn of it.
    nodeAt(target) {
      const drawn = target.closest('[data-node]');
      return drawn ? { node: Number(drawn.dataset.node), drawn } : undefined;
    },
  };
}
