// Where the run of a program stands, for the run of another version of its text.
import { movedLines } from './text_lines.js';

// Which line is next once so many are done, as the text `after` numbers it, and the how-manieth time
// it is; nothing where that text has no such line any more.
export function standingOf({ lines }, number, before, after) {
  const line = lines[number];
  const times = lines.slice(0, number + 1).filter((one) => one === line).length;
  if (line === undefined) return { line, times };
  const [moved] = movedLines([line], before, after);
  return moved && { line: moved, times };
}

// How many lines are done where another run stands there: at the last such time, if there are fewer,
// or at the start.
export function numberOfStanding({ lines }, standing) {
  const numbers = lines.flatMap((line, number) => (line === standing?.line ? [number] : []));
  return standing ? numbers[Math.min(standing.times, numbers.length) - 1] ?? 0 : 0;
}
