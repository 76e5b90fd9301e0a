// The names of the loops that are open before a line, from the outermost on, as the text has them.

const firstWords = (line) => line.split(';', 1)[0].trim().split(/[^A-Za-z0-9_]+/);

export function loopsAround(text, number) {
  const open = [];
  for (const line of text.split('\n', number - 1)) {
    const [word, name] = firstWords(line);
    if (word === 'end') open.pop();
    else if (word === 'for') open.push(name);
    else if (word === 'if' || word === 'while') open.push('');
  }
  return open.filter((name) => name !== '');
}
