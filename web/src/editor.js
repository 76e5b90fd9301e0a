// The editor: a plain text area, with line numbers beside it and marks behind it. A long text is
// shown by a window on its lines, and of these only those in sight have a number drawn.
import { openAtWork } from './at_work.js';
import { blockAround, piecesOfLine } from './colours.js';
import { byId, fit, make, setAttribute, setText } from './dom.js';
import { isProgram, lineBreak } from './indent.js';
import { Sheet } from './sheet.js';
import { movedLines, withLines } from './text_lines.js';
import { openWindow } from './window.js';
import { english } from './words.js';

const QUIET = 30;
const LARGE = 20000;
const WINDOW = 400;
const WIDTH_OF_HEAT = 7;
const SIGHT = {
  from: english('from line {0}'),
  earlier: english('earlier lines'),
  later: english('later lines'),
};

// Longer lines have no colours.
const MOST_COLOURED = 1000;

const makeMark = () => make('div', { class: 'mark' }, make('span', { class: 'badge' }));
const makeNumber = () => make('div', { class: 'line-number' },
  make('span', { class: 'stop', title: english('Stop here, or no more') }),
  make('span', { class: 'heat' }, make('span'), make('span')),
  make('span', { class: 'number', title: english('To this line') }));

const UNTOLD = { parts: [0, 0], times: '', active: '', title: '' };

// How hot a line is: a bar, two numbers, and the same in words.
function drawHeat(place, { parts, times, active, title }) {
  setText(place.firstElementChild, times);
  setText(place.lastElementChild, active);
  setAttribute(place, 'title', title);
  ['--now', '--all'].forEach((name, k) => place.style.setProperty(name, parts[k].toFixed(3)));
}

function drawNumbers(gutter, first, count, { marks, stops, heat, isHot }) {
  fit(gutter, count, makeNumber).forEach((row, k) => {
    const line = first + k;
    setText(row.lastElementChild, String(line));
    setAttribute(row, 'data-line', line);
    const stop = stops.has(line) ? ' stops' : '';
    setAttribute(row, 'class', `line-number ${marks.get(line)?.kind ?? ''}${stop}`);
    if (isHot) drawHeat(row.children[1], heat.get(line) ?? UNTOLD);
  });
}

function drawMarks(paper, first, count, marks) {
  fit(paper, count, makeMark).forEach((row, k) => {
    const mark = marks.get(first + k);
    setAttribute(row, 'class', `mark ${mark?.kind ?? ''}`);
    setText(row.firstElementChild, mark?.badge ?? '');
  });
}

// The lines in sight once more, in colours, behind the text area, whose own are not seen then.
function drawColours(layer, lines, language, block) {
  fit(layer, lines.length, () => make('div')).forEach((row, k) => {
    row.classList.toggle('of-block', block.has(k));
    const shown = `${language} ${lines[k]}`;
    if (row.shown === shown) return;
    row.shown = shown;
    row.replaceChildren(...piecesOfLine(lines[k], language).map(({ text, kind }) =>
      (kind === '' ? text : make('span', { class: kind }, text))));
  });
}

// Where two texts differ last: the end of the difference in the second one.
function endOfChange(before, after) {
  let same = 0;
  const most = Math.min(before.length, after.length);
  const [last, end] = [before.length - 1, after.length - 1];
  while (same < most && before.charCodeAt(last - same) === after.charCodeAt(end - same)) same += 1;
  return after.length - same;
}

// What is entered without data of its own.
const ENTERED = { insertLineBreak: '\n', insertParagraph: '\n' };

export class Editor {
  // `on` has what follows a change of the text, undo, redo, and clicks on a line's number or stop.
  constructor(on) {
    this.area = byId('text');
    this.on = on;
    this.sheet = new Sheet();
    this.marks = new Map();
    this.stops = new Set();
    this.heat = new Map();
    this.isHot = false;
    this.isChosen = false;
    this.showAtWork = openAtWork();
    this.sight = openWindow(SIGHT, WINDOW, (line) => this.moveTo(line), 1);
    byId('lines').append(this.sight.bar);
    this.listen();
  }

  listen() {
    const { area } = this;
    area.addEventListener('input', () => {
      this.wait();
      this.drawColours();
    });
    area.addEventListener('scroll', () => this.draw());
    area.addEventListener('keydown', (event) => this.onKey(event));
    area.addEventListener('beforeinput', (event) => this.onInput(event));
    area.addEventListener('paste', (event) => this.onPaste(event, event.clipboardData));
    area.addEventListener('drop', (event) => this.onPaste(event, event.dataTransfer));
    area.addEventListener('copy', (event) => this.onCopy(event));
    area.addEventListener('cut', (event) => this.onCopy(event) && this.replaceAll(''));
    area.addEventListener('compositionstart', () => this.isAll && this.replaceAll(''));
    document.addEventListener('selectionchange', () => {
      this.isChosen &&= this.isAll;
      if (document.activeElement === area) this.drawColours();
    });
    area.addEventListener('blur', () => this.drawColours());
    byId('gutter').addEventListener('click', (event) => this.onClick(event.target));
    new ResizeObserver(() => this.measure()).observe(area);
    this.measure();
  }

  // The page has its own undo: a text area forgets its own once a text is set. And it has its own
  // choice of all, since a text area has a part of a long text.
  onKey(event) {
    const key = event.key.toLowerCase();
    if (key === 'enter') this.onEnter(event);
    if (!(event.ctrlKey || event.metaKey) || event.altKey || !'zya'.includes(key)) return;
    if (key === 'a' && this.sheet.isWhole) return;
    event.preventDefault();
    event.stopPropagation();
    this.look();
    if (key === 'a') this.chooseAll();
    else if (key === 'y' || event.shiftKey) this.on.redo();
    else this.on.undo();
  }

  // A line break in a program. A key that goes with others, or to a word that is being composed, is
  // the browser's.
  onEnter(event) {
    const { area, sheet } = this;
    const isOther = event.ctrlKey || event.metaKey || event.altKey || event.shiftKey;
    if (isOther || event.isComposing || this.isAll || !isProgram(sheet.text)) return;
    event.preventDefault();
    const { value, selectionStart, selectionEnd } = area;
    const [before, after] = lineBreak(value.slice(0, selectionStart), value.slice(selectionEnd));
    document.execCommand('insertText', false, before + after);
    const at = selectionStart + before.length;
    area.setSelectionRange(at, at);
  }

  chooseAll() {
    this.area.select();
    this.isChosen = true;
  }

  // Whether all of a text is chosen of which a part is in the text area.
  get isAll() {
    const { area, isChosen } = this;
    return isChosen && area.selectionStart === 0 && area.selectionEnd === area.value.length;
  }

  onCopy(event) {
    if (!this.isAll) return false;
    event.clipboardData.setData('text/plain', this.sheet.text);
    event.preventDefault();
    return true;
  }

  onInput(event) {
    if (event.inputType === 'historyUndo') this.on.undo();
    else if (event.inputType === 'historyRedo') this.on.redo();
    else if (this.isAll) this.replaceAll(event.data ?? ENTERED[event.inputType] ?? '');
    else if ((event.data?.length ?? 0) > LARGE) this.insert(event.data);
    else return;
    event.preventDefault();
  }

  onPaste(event, data) {
    if (data?.files.length > 0) return;
    const text = data?.getData('text/plain') ?? '';
    if (text.length <= LARGE && !this.isAll) return;
    event.preventDefault();
    if (this.isAll) this.replaceAll(text);
    else this.insert(text);
  }

  // A long text is put into the sheet, and not into the text area, which would take minutes.
  insert(text) {
    const { area, sheet } = this;
    this.changeSheet(() => sheet.insert(withLines(text), area.selectionStart, area.selectionEnd));
  }

  replaceAll(text) {
    const { sheet } = this;
    this.changeSheet(() => {
      sheet.set(withLines(text));
      return sheet.text.length;
    });
  }

  // `change` changes the sheet, and tells where the cursor is then.
  changeSheet(change) {
    const { sheet } = this;
    const before = sheet.text;
    const at = change();
    this.isChosen = false;
    this.moveStops(before);
    this.showSheet(at);
    this.on.change(sheet.text);
  }

  // Stops stay with their lines, where the sheet had this text before.
  moveStops(before) {
    const { stops, sheet } = this;
    if (stops.size > 0) this.stops = new Set(movedLines(stops, before, sheet.text));
  }

  onClick(target) {
    const line = Number(target.closest('.line-number')?.dataset.line);
    if (!(line > 0)) return;
    if (target.classList.contains('stop')) this.on.stop(line);
    else this.on.toLine(line);
  }

  // A text is looked at once the writing pauses.
  wait() {
    clearTimeout(this.timer);
    this.area.classList.add('waits');
    this.timer = setTimeout(() => this.look(), QUIET);
  }

  // Takes what was written, if anything was.
  look() {
    const { area, sheet } = this;
    if (!area.classList.contains('waits')) return;
    clearTimeout(this.timer);
    area.classList.remove('waits');
    const before = sheet.text;
    sheet.write(area.value);
    this.moveStops(before);
    if (sheet.isOver) this.showSheet(sheet.start + area.selectionEnd);
    this.drawAll();
    this.on.change(sheet.text);
  }

  // The line that the cursor is in.
  get line() {
    const { area, sheet } = this;
    return sheet.first - 1 + area.value.slice(0, area.selectionEnd).split('\n').length;
  }

  // How high a line and the text area are: asked for once, since an answer takes a layout.
  measure() {
    this.lineHeight = parseFloat(getComputedStyle(this.area).lineHeight);
    this.height = this.area.clientHeight;
    this.draw();
  }

  moveTo(line) {
    this.look();
    this.sheet.moveTo(line);
    this.area.value = this.sheet.part;
    this.area.scrollTop = 0;
    this.drawAll();
  }

  // Shows the sheet with the cursor at this place of the text.
  showSheet(offset) {
    const { area, sheet } = this;
    const at = sheet.reveal(offset);
    const top = area.scrollTop;
    area.value = sheet.part;
    area.setSelectionRange(at, at);
    area.scrollTop = top;
    this.drawAll();
  }

  drawAll() {
    this.sight.range(this.sheet.lines, this.sheet.first, this.sheet.isWhole);
    this.draw();
  }

  draw() {
    const { area, sheet, marks, lineHeight } = this;
    const [gutter, paper] = [byId('gutter'), byId('marks')];
    const above = Math.floor(area.scrollTop / lineHeight);
    const first = sheet.first + above;
    const inSight = Math.ceil(this.height / lineHeight) + 1;
    const count = Math.max(Math.min(inSight, sheet.linesInPart - above), 0);
    const shift = `translateY(${above * lineHeight - area.scrollTop}px)`;
    drawNumbers(gutter, first, count, this);
    drawMarks(paper, first, count, marks);
    this.drawColours();
    gutter.style.transform = shift;
    paper.style.transform = shift;
    gutter.parentElement.toggleAttribute('data-heat', this.isHot);
    const digits = Math.max(String(sheet.lines).length, 2) + 3;
    gutter.parentElement.style.width = `${digits + (this.isHot ? WIDTH_OF_HEAT : 0)}ch`;
  }

  // In what stands in the text area now, which may not be looked at yet.
  drawColours() {
    const { area, lineHeight, height } = this;
    const lines = area.value.split('\n');
    const above = Math.floor(area.scrollTop / lineHeight);
    const inSight = lines.slice(above, above + Math.ceil(height / lineHeight) + 1);
    const isPlain = inSight.some((line) => line.length > MOST_COLOURED);
    area.classList.toggle('plain', isPlain);
    const language = isProgram(this.sheet.text) ? 'pardo' : 'pram';
    const isAtCaret = document.activeElement === area && language === 'pardo';
    const at = isAtCaret ? area.value.slice(0, area.selectionEnd).split('\n').length - 1 : -1;
    const block = isAtCaret ? blockAround(lines, at) : [];
    const layer = byId('colours');
    drawColours(layer, isPlain ? [] : inSight, language, new Set(block.map((k) => k - above)));
    const [left, top] = [-area.scrollLeft, above * lineHeight - area.scrollTop];
    layer.style.transform = `translate(${left}px, ${top}px)`;
  }

  // Has this text. Where it is another version of what stands there the cursor goes to the change,
  // and stops stay; another text has none.
  set(text, isVersion = false) {
    const { area, sheet } = this;
    clearTimeout(this.timer);
    area.classList.remove('waits');
    const before = sheet.text;
    const at = isVersion ? endOfChange(before, text) : 0;
    sheet.set(text, isVersion ? sheet.first : 1);
    if (isVersion) this.moveStops(before);
    else this.stops.clear();
    this.showSheet(at);
    if (isVersion) this.show(sheet.lineAt(at));
    else area.scrollTop = 0;
  }

  // Marks by line: a kind, which is a class, and a badge.
  mark(byLine) {
    if (byLine.size === 0 && this.marks.size === 0) return;
    this.marks = byLine;
    this.showAtWork(byLine, this.sheet.text);
    this.draw();
  }

  // How hot lines are, by line; and whether there is room for it.
  setHeat(byLine, isShown) {
    if (!isShown && !this.isHot) return;
    Object.assign(this, { heat: byLine, isHot: isShown });
    this.draw();
  }

  setFault(isFault) {
    setAttribute(this.area, 'aria-invalid', String(isFault));
  }

  // Brings a line into sight where it is not.
  show(line) {
    const { area, sheet, lineHeight } = this;
    if (!sheet.isWhole && (line < sheet.first || line >= sheet.first + WINDOW)) {
      this.moveTo(line - WINDOW / 2);
    }
    const top = (line - sheet.first) * lineHeight;
    const bottom = top + lineHeight - this.height;
    if (top < area.scrollTop) area.scrollTop = top;
    else if (bottom > area.scrollTop) area.scrollTop = bottom + 4 * lineHeight;
  }

  // The same, unless someone is writing.
  reveal(line) {
    if (document.activeElement !== this.area) this.show(line);
  }
}
