// The part of a text that a text area holds: all of a short one, and a window on a long one, since
// browsers take seconds to lay out so many lines.
import { countLines, startOfLine } from './text_lines.js';

const MOST_CHARACTERS = 40000;
const MOST_LINES = 1000;
const LINES = 400;

export class Sheet {
  constructor() {
    this.set('');
  }

  // Has this text, from this line on where it is long.
  set(text, line = 1) {
    this.text = text;
    this.lines = countLines(text);
    this.moveTo(line);
  }

  get isWhole() {
    return this.lines <= MOST_LINES && this.text.length <= MOST_CHARACTERS;
  }

  moveTo(line) {
    const { text, lines, isWhole } = this;
    this.first = isWhole ? 1 : Math.min(Math.max(line, 1), lines);
    this.start = startOfLine(text, 0, this.first - 1);
    const end = isWhole ? text.length : startOfLine(text, this.start, LINES);
    const last = isWhole || this.first + LINES > lines ? text.length : end;
    this.end = isWhole ? last : Math.min(last, this.start + MOST_CHARACTERS);
    this.linesInPart = isWhole ? lines : Math.min(countLines(this.part), lines - this.first + 1);
  }

  get part() {
    return this.text.slice(this.start, this.end);
  }

  // The window's part was changed to this.
  write(part) {
    this.text = this.text.slice(0, this.start) + part + this.text.slice(this.end);
    this.end = this.start + part.length;
    this.linesInPart = countLines(part);
    this.lines = countLines(this.text);
  }

  // Whether the window, once written in, is no longer one that a text area holds with ease.
  get isOver() {
    return this.end - this.start > 2 * MOST_CHARACTERS;
  }

  // Puts a text in the place of a piece of the window, from `from` to `to`; tells where it ends.
  insert(text, from, to) {
    const [start, end] = [this.start + from, this.start + to];
    const whole = this.text.slice(0, start) + text + this.text.slice(end);
    this.set(whole, this.first);
    return start + text.length;
  }

  lineAt(offset) {
    return countLines(this.text.slice(0, offset));
  }

  // Shows the place; tells where it is in the window.
  reveal(offset) {
    if (offset < this.start || offset > this.end) this.moveTo(this.lineAt(offset) - LINES / 2);
    return Math.min(Math.max(offset - this.start, 0), this.end - this.start);
  }
}
