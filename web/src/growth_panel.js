// Growth: what a program costs with several values of a constant, in a table and a plot.
import { CODE } from './declared.js';
import { byId, make, makeSvg, onClick, setHidden, setText } from './dom.js';
import { HEIGHT, WIDTH, plotOf } from './growth_plot.js';
import { grouped } from './numbers.js';
import { pictureOf, saveSvg, withStyles } from './styled_svg.js';
import { english, language, phrase } from './words.js';

const CONSTANT = /^(?<before>\s*const\s+(?<name>[A-Za-z_]\w*)\s*=\s*)\d+(?<after>\s*(?:;.*)?)$/;
const CODE_LINE = /^[ \t]*code\b/;
const MOST_VALUES = 12;
const GREATEST = 1048576;

const COSTS = [english('steps'), english('instructions executed'),
  english('processors times steps')];
const costsOf = ({ steps, procs, executed }) => [steps, executed, steps * procs];

// The lines before the code that give a constant a number.
function constantsOf(text) {
  const lines = text.split('\n');
  const code = lines.findIndex((line) => CODE_LINE.test(line));
  return lines.slice(0, Math.max(code, 0)).flatMap((line, at) => {
    const found = CONSTANT.exec(line);
    return found ? [{ at, name: found.groups.name }] : [];
  });
}

// A list of so many values: those that are given, again and again; what follows `...` needs none.
function listOf(list, count) {
  const values = list.split(',').map((value) => value.trim());
  if (list.endsWith('...') && values.length <= count) return list;
  const given = values.map((value) => value.replace('...', '').trim());
  return Array.from({ length: count }, (_, k) => given[k % given.length]).join(', ');
}

// The text with another value of a constant. An array that has as many places gets as many values.
function withValue(text, { at, name }, value) {
  const lines = text.split('\n');
  const array = new RegExp(`^(\\s*shared\\s+\\w+\\s*\\[\\s*${name}\\s*\\]\\s*=)([^;]*)(.*)$`);
  const code = lines.findIndex((line) => CODE_LINE.test(line));
  return lines.map((line, k) => {
    if (k === at) return line.replace(CONSTANT, `$<before>${value}$<after>`);
    return k > code || value === 0 ? line : line.replace(array, (_, before, list, after) =>
      `${before} ${listOf(list.trim(), value)} ${after}`);
  }).join('\n');
}

// The numbers of a list in words; nothing where it is none.
function valuesOf(words) {
  const parts = words.split(/[\s,]+/).filter(Boolean);
  const values = [...new Set(parts.map(Number))].sort((one, other) => one - other);
  const areNumbers = parts.every((part) => /^\d+$/.test(part)) &&
    values.every((value) => value <= GREATEST);
  return areNumbers && values.length >= 1 && values.length <= MOST_VALUES ? values : undefined;
}

const failureInWords = (code) => phrase(code === CODE.CONFLICT
  ? english('A conflict ends it.') : english('There is no such program, or it is too large.'));

const cellOf = (words, more = {}) => make('td', more, words);

function rowOf({ n, costs, code }) {
  const cells = costs ? costs.map((cost) => cellOf(grouped(cost)))
    : [cellOf(failureInWords(code), { colspan: COSTS.length })];
  return make('tr', {}, make('th', { scope: 'row' }, grouped(n)), ...cells);
}

export class GrowthPanel {
  constructor(app) {
    Object.assign(this, { app, rows: [], text: undefined, said: () => '' });
    onClick('growth-run', () => this.run());
    onClick('save-growth', () => this.save());
  }

  // What was measured is another program's, or is said in another language.
  show() {
    const { runText: text, job } = this.app;
    if (text === this.text && language() === this.spoken) return;
    this.spoken = language();
    if (text === this.text) {
      this.draw();
      return;
    }
    this.stop();
    Object.assign(this, { text, rows: [], said: () => '' });
    this.constants = job.source ? constantsOf(text) : [];
    setHidden(byId('growth'), this.constants.length === 0);
    byId('growth-name').replaceChildren(
      ...this.constants.map(({ name }, k) => make('option', { value: k }, name)));
    this.draw();
  }

  stop() {
    this.far?.forget();
  }

  // `said` tells it in the language of then.
  say(said) {
    this.said = said;
    this.draw();
  }

  run() {
    this.stop();
    const values = valuesOf(byId('growth-values').value);
    if (!values) {
      this.say(() => phrase('The values are numbers, at most {0} of them.', MOST_VALUES));
      return;
    }
    const constant = this.constants[Number(byId('growth-name').value)];
    Object.assign(this, { rows: [], constant });
    this.goOn(values);
  }

  // One after the other, in a thread of their own.
  goOn([n, ...others]) {
    const { app, constant, text } = this;
    if (n === undefined) {
      this.say(() => phrase('All values were tried.'));
      return;
    }
    this.say(() => phrase('{0} = {1} is tried.', constant.name, grouped(n)));
    this.far ??= app.far.another();
    this.far.ask('measure', [withValue(text, constant, n)], (told) => {
      const { code } = told;
      this.rows.push({ n, code, costs: code === CODE.DONE ? costsOf(told) : undefined });
      this.goOn(others);
    });
  }

  draw() {
    const { rows, constant, said } = this;
    setText(byId('growth-said'), said());
    const plotted = rows.filter(({ n, costs }) => n >= 2 && costs);
    setHidden(byId('growth-table'), rows.length === 0);
    setHidden(byId('growth-picture'), plotted.length < 2);
    setHidden(byId('save-growth'), plotted.length < 2);
    if (rows.length === 0) return;
    const names = COSTS.map((cost) => phrase(cost));
    const heads = [constant.name, ...names].map((name) => make('th', { scope: 'col' }, name));
    byId('growth-table').replaceChildren(make('tr', {}, ...heads), ...rows.map(rowOf));
    if (plotted.length >= 2) byId('growth-plot').replaceChildren(...plotOf(plotted, names));
  }

  save() {
    const copy = withStyles(byId('growth-plot'), makeSvg('g'));
    saveSvg('growth.svg', pictureOf(WIDTH, HEIGHT, [copy], byId('growth-said').textContent));
  }
}
