// What Enter writes in a program: the indent of the line, more after a line that opens a block, and
// the block's `end` where there is none.
const STEP = '   ';
const OPENS = /^(?:for|while|if|elsif|else)\b(?!\s*(?::=|\[))/;
const CLOSES = /^(?:end|else|elsif)\b/;
const GOES_ON = /^(?:elsif|else)\b/;
const PROGRAM = /^(?:[ \t]*(?:;[^\n]*)?\n)*[ \t]*pardo\b/;
const HEAD = 4000;

export const isProgram = (text) => PROGRAM.test(text.slice(0, HEAD));

const indentOf = (line) => /^[ \t]*/.exec(line)[0];

// Whether the block of a line with this indent goes on, or is closed, in the lines after it.
function isClosed(lines, indent) {
  const next = lines.find((line) => line.trim() !== '');
  if (next === undefined) return false;
  const its = indentOf(next);
  return its.length > indent.length || (its === indent && CLOSES.test(next.slice(its.length)));
}

// By what stands before and after the caret: what is written before it, and what after it.
export function lineBreak(before, after) {
  const line = before.slice(before.lastIndexOf('\n') + 1);
  const indent = indentOf(line);
  const code = line.slice(indent.length);
  const [rest, ...lines] = after.split('\n', 200);
  if (!OPENS.test(code) || rest.trim() !== '') return [`\n${indent}`, ''];
  const end = GOES_ON.test(code) || isClosed(lines, indent) ? '' : `\n${indent}end`;
  return [`\n${indent}${STEP}`, end];
}
