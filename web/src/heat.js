// The heat of lines: behind the number of each line how often it was executed and by how many
// processors; and the same as a table.
import { byId, fit, make, setHidden, setText } from './dom.js';
import { LineCounts } from './line_counts.js';
import { grouped, shortened } from './numbers.js';
import { lineOf } from './text_lines.js';
import { english, phrase } from './words.js';

const KEY = 'kaolinsilk heat';
const OFF = 'off';

// So many steps of processors are made at most to count who is active.
const MOST_STEPS = 200000000;

const SHORT = new Intl.NumberFormat('en', { notation: 'compact' });

const HEADS = [english('line'), english('executed so far'), english('in the whole run'),
  english('active so far'), english('in the whole run'), english('at most at once')];

function isKeptOff() {
  try {
    return localStorage.getItem(KEY) === OFF;
  } catch {
    return false;
  }
}

// A browser that keeps nothing has it so as long as the page lasts.
function keep(isOn) {
  try {
    if (isOn) localStorage.removeItem(KEY);
    else localStorage.setItem(KEY, OFF);
  } catch {
    // The control itself says what is chosen.
  }
}

const timesInWords = ({ timesNow, times }) =>
  phrase('Executed so far: {0} of {1} times.', grouped(timesNow), grouped(times));

const activeInWords = ({ activeNow, active, most }) =>
  phrase('Active processors, counted each time: {0} of {1}, at most {2} at once.',
    grouped(activeNow), grouped(active), grouped(most));

// What stands beside the number of a line.
function shown(row, isTold) {
  return {
    parts: row.parts,
    times: `${SHORT.format(row.timesNow)}×`,
    active: isTold ? SHORT.format(row.activeNow) : '',
    title: isTold ? `${timesInWords(row)} ${activeInWords(row)}` : timesInWords(row),
  };
}

function cellsOf({ times, active, most, timesNow, activeNow }, isTold) {
  const numbers = [timesNow, times, ...(isTold ? [activeNow, active, most] : [])];
  return HEADS.slice(1).map((_, k) => (k < numbers.length ? grouped(numbers[k]) : ''));
}

const makeRow = () => make('tr', {}, make('th', { scope: 'row' }),
  ...HEADS.slice(1).map(() => make('td')));

export class Heat {
  // `isOn` says whether it is shown at first; nothing where that is as it was chosen before.
  constructor(app, isOn) {
    this.app = app;
    this.box = byId('heat');
    this.box.checked = isOn ?? !isKeptOff();
    this.box.addEventListener('change', () => {
      keep(this.box.checked);
      this.show();
    });
    byId('by-lines').addEventListener('toggle', () => this.show());
  }

  // The run of the program that is shown by its lines, if it is told and is asked for.
  get pace() {
    const { view, job, whole } = this.app;
    const isWanted = this.box.checked || byId('by-lines').open;
    return view === 'lockstep' && job?.source && isWanted ? whole.lines() : undefined;
  }

  show() {
    const { app, pace, box } = this;
    setHidden(byId('heat-choice'), !app.job?.source);
    setHidden(byId('by-lines'), !app.job?.source);
    if (pace !== this.counted) this.count(pace);
    this.counts?.moveTo(pace.numberAt(app.step));
    const rows = this.counts?.byLine ?? new Map();
    const isTold = this.counts?.active !== undefined;
    const inText = app.isStale ? [] : [...rows];
    app.editor.setHeat(new Map(inText.map(([line, row]) => [line, shown(row, isTold)])),
      box.checked && app.job?.source !== undefined && app.view === 'lockstep');
    if (byId('by-lines').open) this.showTable(rows, isTold);
  }

  // Counts another run: how many are active is told in a thread.
  count(pace) {
    this.far?.forget();
    this.counted = pace;
    this.counts = pace && new LineCounts(pace.lines);
    if (!pace) return;
    const { job } = this.app;
    const { cells, procs, places, instructions, source, text } = job;
    const steps = pace.lines.map((_, k) => pace.stepAt(k));
    if (steps.reduce((sum, step) => sum + step, 0) * procs > MOST_STEPS) return;
    const lines = pace.lines.map((line, k) => ({ step: steps[k], mask: source.maskOf(line) }));
    this.far ??= this.app.far.another();
    this.far.ask('active', [text, { cells, procs, places, instructions }, lines], (active) => {
      this.counts = new LineCounts(pace.lines, active);
      this.show();
    });
  }

  showTable(rows, isTold) {
    const { runText } = this.app;
    fit(byId('by-lines-head'), HEADS.length, () => make('th', { scope: 'col' }))
      .forEach((cell, k) => setText(cell, phrase(HEADS[k])));
    const lines = [...rows];
    fit(byId('by-lines-rows'), lines.length, makeRow).forEach((part, k) => {
      const [line, row] = lines[k];
      const words = shortened(lineOf(runText, line).split(';', 1)[0].trim(), 40);
      [`${grouped(line)}: ${words}`, ...cellsOf(row, isTold)]
        .forEach((said, column) => setText(part.children[column], said));
    });
  }
}
