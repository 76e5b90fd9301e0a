// What mends the usual slips in a line of a program. The core says which of them do.
import { CODE, PROGRAM_FAULT } from './declared.js';
import { isNear } from './reading.js';

const TARGET = String.raw`[A-Za-z_]\w*(?:\s*\[.*?\])?`;

// What is written, and what is meant.
const SLIPS = [
  [new RegExp(String.raw`^(\s*)(${TARGET})\s*([-+*])=\s*(.+)$`), '$1$2 := $2 $3 $4'],
  [new RegExp(String.raw`^(\s*)(${TARGET})\s*([-+])\3$`), '$1$2 := $2 $3 1'],
  [/==/g, '='],
  [/<>/g, '!='],
  [/&&/g, 'and'],
  [/\|\|/g, 'or'],
  [/\bmod\b/g, '%'],
  [/\blog2?\(/g, 'lg('],
  [/^(\s*)(?:else\s+if|elseif|elif)\b/, '$1elsif'],
  [/^(\s*)end\s*(?:if|for|while)\b/, '$1end'],
  [/^(\s*(?:if|elsif|else|while|for)\b.*?)\s*(?:then|do|\{|:)$/, '$1'],
  [/^(\s*(?:if|elsif|while|for|const|shared|private)\b.*?):=/, '$1='],
  [new RegExp(String.raw`^(\s*${TARGET}\s*)(?:=|<-)(?!=)`), '$1:='],
  [/(?:#|\/\/).*$/, (comment) => comment.replace(/^(?:#|\/\/)/, ';')],
];

const MOST_FIXES = 3;

// What a line may be meant as: by one of the slips, or by all of them.
function meantBy(line) {
  const [, code, rest] = /^([^;]*?)(\s*(?:;.*)?)$/.exec(line);
  const mend = (text, [slip, meant]) => text.replace(slip, meant);
  const each = SLIPS.map((slip) => mend(code, slip));
  const found = new Set([...each, SLIPS.reduce(mend, code)]);
  found.delete(code);
  return [...found].map((text) => text + rest);
}

const OPENS = /^(\s*)(?:for|while|if)\b(?!\s*(?::=|\[))/;
const CLOSES = /^\s*end\b(?!\s*(?::=|\[))/;

// The lines that close what is open at the end of a text.
function missingEnds(lines) {
  const open = [];
  for (const line of lines) {
    if (CLOSES.test(line)) open.pop();
    else if (OPENS.test(line)) open.push(OPENS.exec(line)[1]);
  }
  return open.reverse().map((indent) => `${indent}end`);
}

function withEnds(text) {
  const lines = text.trimEnd().split('\n');
  const ends = missingEnds(lines);
  return ends.length === 0 ? [] : [{ said: 'end', text: `${[...lines, ...ends].join('\n')}\n` }];
}

function withLine(text, number) {
  const lines = text.split('\n');
  return meantBy(lines[number - 1] ?? '').map((line) =>
    ({
      said: line.trim(),
      text: lines.map((one, k) => (k === number - 1 ? line : one)).join('\n'),
    }));
}

// Versions of a program with a fault in a line that do not have it, each with the line that is
// another one.
export function fixesOf(core, text, { code, fault, line }) {
  if (code !== CODE.NO_JOB || !isNear(text, 0)) return [];
  const isOpen = fault === PROGRAM_FAULT.OPEN_BLOCK;
  const isBetter = (fixed) => {
    const told = core.lines(fixed.text);
    return told.code === CODE.DONE || (told.code === CODE.NO_JOB &&
      (isOpen || told.fault === PROGRAM_FAULT.OPEN_BLOCK ? told.fault !== fault
        : told.line > line));
  };
  return (isOpen ? withEnds(text) : withLine(text, line)).filter(isBetter).slice(0, MOST_FIXES);
}
