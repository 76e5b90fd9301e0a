// The colours of a text: words, numbers and comments of its lines, and the words of a block.
import { INSTRUCTIONS } from './declared.js';

const WORDS = {
  pardo: ['pardo', 'rule', 'const', 'procs', 'shared', 'private', 'code', 'for', 'to', 'downto',
    'while', 'if', 'elsif', 'else', 'end', 'assert', 'and', 'or', 'xor', 'min', 'max', 'lg'],
  pram: ['pram', 'cells', 'procs', 'steps', 'rule', 'array', 'init', 'code',
    ...INSTRUCTIONS.map(([name]) => name)],
};

const PIECE = /(?<comment>;.*)|(?<word>[A-Za-z_]\w*)|(?<number>\d+)|[^;\w]+|./g;

// The pieces of a line, each with its kind; `language` is pardo or pram.
export function piecesOfLine(line, language) {
  return [...line.matchAll(PIECE)].map(([text, comment, word, number]) => {
    if (comment !== undefined) return { text, kind: 'comment' };
    if (number !== undefined) return { text, kind: 'number' };
    return { text, kind: WORDS[language].includes(word) ? 'word' : '' };
  });
}

// What a line does with blocks: `elsif` and `else` go on with one. Before `:=` or `[` some of these
// are names.
const BLOCK = /^\s*(for|while|if|elsif|else|end)\b(?!\s*(?::=|\[))/;

// The lines of the innermost block that a line is of, in a program; none where it is in none.
export function blockAround(lines, at) {
  const open = [];
  for (const [k, line] of lines.entries()) {
    const word = BLOCK.exec(line)?.[1];
    if (word === undefined) continue;
    if (word === 'end') {
      const block = [...open.pop() ?? [], k];
      if (block[0] <= at && at <= k) return block;
    } else if (word === 'else' || word === 'elsif') open.at(-1)?.push(k);
    else open.push([k]);
  }
  return open.filter(([first]) => first <= at).at(-1) ?? [];
}
