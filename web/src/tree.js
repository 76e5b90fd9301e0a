// The progress tree: its nodes in the colour of the pass that is finished below them, and the
// workers at the nodes where they stand.
import { byId, makeSvg, setAttribute, setText } from './dom.js';
import { DOING } from './kinds.js';
import { nodeInWords } from './meaning.js';
import { grouped } from './numbers.js';
import { passName, passOfPhase, stepOfPhase } from './phases.js';
import { pictureOf, saveSvg, withStyles } from './styled_svg.js';
import { barsOf } from './tree_bars.js';
import { circlesOf } from './tree_circles.js';
import { HEIGHT, WIDTH, middleOf } from './tree_shape.js';
import { counted, phrase } from './words.js';

const MOST_CIRCLES = 64;

const layoutOf = (job) => (job.leaves > MOST_CIRCLES ? barsOf(job) : circlesOf(job));

// Bodies at one node stand side by side above it.
function makeBodies(layout, scene, workers) {
  const standing = new Map();
  scene.bodies.forEach((body, number) => {
    if (body.doing === DOING.LOST || body.node === 0) return;
    standing.set(body.node, [...(standing.get(body.node) ?? []), number]);
  });
  return [...standing].flatMap(([node, numbers]) => numbers.map((number, k) => {
    const x = middleOf(node) + (k - (numbers.length - 1) / 2) * 15;
    const at = { x: Math.min(Math.max(x, 9), WIDTH - 9), y: layout.top(node) - 8 };
    return makeBody(at, workers[number], number >= scene.workers);
  }));
}

function makeBody(at, worker, isTwin) {
  return makeSvg('g', { class: `body worker${worker}${isTwin ? ' twin' : ''}` },
    makeSvg('circle', { cx: at.x, cy: at.y, r: 8 }),
    makeSvg('text', { x: at.x, y: at.y }, String(worker)));
}

function summary(job, scene) {
  const phase = scene.root + 1;
  const finished = scene.nodes.reduce((sum, value) => sum + (value >= phase ? 1 : 0), 0);
  if (scene.finished === job.steps) return phrase('All steps are finished.');
  if (scene.conflict > 0) return phrase('Step {0} is against the rule.', grouped(scene.conflict));
  return counted(scene.nodes.length - 1,
    'Phase {1} (step {2}, {3}): {4} of {0} node are finished.',
    'Phase {1} (step {2}, {3}): {4} of {0} nodes are finished.', grouped(phase),
    grouped(stepOfPhase(phase)), passName(job.rule, passOfPhase(phase)), grouped(finished));
}

export class Tree {
  constructor() {
    this.drawing = byId('tree');
    this.size = '';
    this.drawing.addEventListener('pointermove', (event) => this.name(event));
  }

  // A node's words are made when someone points at it.
  name({ target, clientX, clientY }) {
    const at = new DOMPoint(clientX, clientY)
      .matrixTransform(this.drawing.getScreenCTM().inverse());
    const { node, drawn } = this.layout.nodeAt(target, at) ?? {};
    if (!drawn) return;
    const title = drawn.querySelector('title') ?? drawn.appendChild(makeSvg('title'));
    setText(title, nodeInWords(this.job, node, this.phases[node]));
  }

  // Makes the nodes of a tree of another size.
  make(job) {
    this.layout = layoutOf(job);
    this.phases = new Float64Array(2 * job.leaves).fill(-1);
    this.bodies = makeSvg('g', { class: 'bodies' });
    this.drawing.setAttribute('viewBox', `0 0 ${WIDTH} ${HEIGHT}`);
    this.drawing.replaceChildren(...this.layout.parts, this.bodies);
  }

  show(job, scene, workers) {
    const size = `${job.leaves} ${job.procs}`;
    this.job = job;
    if (this.size !== size) this.make(job);
    this.size = size;
    this.layout.show(scene.nodes, this.phases);
    this.phases = scene.nodes;
    this.bodies.replaceChildren(...makeBodies(this.layout, scene, workers));
    this.summary = summary(job, scene);
    setAttribute(this.drawing, 'aria-label', phrase('The progress tree. {0}', this.summary));
    setText(byId('tree-summary'), this.summary);
  }

  save() {
    const copy = withStyles(this.drawing, this.drawing.cloneNode(true));
    copy.setAttribute('width', WIDTH);
    copy.setAttribute('height', HEIGHT);
    saveSvg('tree.svg', pictureOf(WIDTH, HEIGHT, [copy], this.summary));
  }
}
