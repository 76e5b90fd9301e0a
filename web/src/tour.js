// A tour of some fifteen minutes, from one program in lockstep to a worker that is lost.
import { english } from './words.js';

const WORKERS = 'example=sum.pardo&view=workers&workers=3';

export const TOUR = [
  {
    title: english('one program, four processors'),
    address: 'example=sum.pardo&view=lockstep&step=0',
    task: english(
      'Four processors run the same program on common memory, line by line together. It sums ' +
      'eight values. Click “Step” some times: the arrow in the text shows where all are, those ' +
      'that are lit take part in the line, and arrows show who reads and who writes.'),
  },
  {
    title: english('reads before writes'),
    address: 'example=sum.pardo&view=lockstep&step=12',
    task: english(
      'In each line all reads come before all writes. So the result depends on nobody’s speed. A ' +
      'line is some steps of the machine: “the machine’s steps” shows them. Below, the plot has ' +
      'all of them; a click goes there. Under it stands what the run costs.'),
  },
  {
    title: english('nobody has such a machine'),
    address: `${WORKERS}`,
    task: english(
      'Real threads stop, sleep and die at any moment. Here three workers do the work of the ' +
      'four processors, by atomic steps on common words: each step of the machine, and so each ' +
      'line. Click “Step all” some times: each walks through the tree, from leaf to leaf.'),
  },
  {
    title: english('the tree'),
    address: `${WORKERS}&acts=0.1.2*60`,
    task: english(
      'A leaf is a processor. Each step of the machine has passes over all leaves; a node is ' +
      'coloured when all below it is done. Who comes to a node that is done goes elsewhere, and ' +
      'who finds the root done begins the next pass. Nobody waits.'),
  },
  {
    title: english('a worker is lost'),
    address: `${WORKERS}&acts=0.1.2*64~l2`,
    task: english(
      'Worker 2 is lost in the midst of processor 3’s part: the register is written, the counter ' +
      'is not, and the leaf P3 is not marked. Nobody is told. What will the others do? Click ' +
      '“Step all” some ten times, and read in the list of atomic steps what they do at that leaf.'),
  },
  {
    title: english('the others do its part'),
    address: `${WORKERS}&acts=0.1.2*64~l2~0.1*80`,
    task: english(
      'The others found its leaf not done, and did its part; what was written already stayed. ' +
      'The first step is finished, and “Next finished step” shows each further one. Go back with ' +
      'the slider and lose a worker elsewhere: try any moment at all.'),
  },
  {
    title: english('it slept, and is late'),
    address: `${WORKERS}&acts=0.1.2*60~s2~0.1*100~w2`,
    task: english(
      'A lost worker does nothing more. One that slept does: worker 2 wakes, as if no time had ' +
      'passed, and goes on with what it meant to do then. Step it six times and more: it finds ' +
      'its words written and its leaf raised already, changes nothing, and walks on.'),
  },
  {
    title: english('back, knowing nothing'),
    address: `${WORKERS}&acts=0.1.2*64~l2~0.1*80~b2`,
    task: english(
      'Worker 2 comes back. All it has is one word: where it stood. Step it: it reads that, then ' +
      'the root, and works on at its leaf.'),
  },
  {
    title: english('one of three goes on'),
    address: `${WORKERS}&acts=0.1.2*64~l2~0.1*80~l1`,
    task: english(
      'Now two of three are lost. Click “To the end”: one worker is enough, and the answer is ' +
      'the plain machine’s. That holds for every program, each number of workers and any ' +
      'schedule: it is proved. Next: the exercises, and “Find a schedule”.'),
  },
].map((stop, k) => ({ ...stop, number: k + 1 }));
