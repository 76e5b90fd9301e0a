// The texts of the page's sources: those that are asked for in a language, and other literals that
// look like words.

// How many of the first arguments of a call are texts.
const TEXTS = { english: 1, phrase: 1, counted: 3 };

// From which argument on a call shows what it is given.
const SHOWN = { setText: 1, make: 2, makeSvg: 2 };

// A pattern between slashes stands where an operand may.
const PATTERN = String.raw`(?<=[(,=:[!&|?{};]\s*|return |=> )` +
  String.raw`\/(?:[^\/\\\n[]|\\.|\[(?:[^\]\\\n]|\\.)*\])+\/\w*`;

const TOKEN = new RegExp([
  String.raw`(?<comment>\/\/[^\n]*)`,
  String.raw`(?<text>'(?:[^'\\\n]|\\.)*')`,
  `(?<pattern>${PATTERN})`,
  String.raw`(?<name>[A-Za-z_$][\w$]*)`,
  String.raw`(?<sign>[^\s\w])`,
].join('|'), 'yu');

// The end of a template that begins here, its text with 0 for each part, and its parts.
function templateAt(source, start) {
  const parts = [];
  let text = '';
  let at = start + 1;
  while (source[at] !== '`') {
    if (source.startsWith('${', at)) {
      const end = endOfPart(source, at + 2);
      parts.push(source.slice(at + 2, end));
      text += '0';
      at = end + 1;
    } else {
      text += source[at];
      at += source[at] === '\\' ? 2 : 1;
    }
  }
  return { end: at + 1, text, parts };
}

function endOfPart(source, start) {
  let open = 1;
  let at = start;
  for (;;) {
    if (source[at] === '`') at = templateAt(source, at).end;
    else {
      if (source[at] === '{') open += 1;
      if (source[at] === '}') open -= 1;
      if (open === 0) return at;
      at += 1;
    }
  }
}

// The parts of a template stand before it, each in brackets.
const ofPart = (part) =>
  [{ kind: 'sign', text: '(' }, ...tokensOf(part), { kind: 'sign', text: ')' }];

function tokensOf(source) {
  const found = [];
  for (let at = 0; at < source.length;) {
    if (source[at] === '`') {
      const { end, text, parts } = templateAt(source, at);
      found.push(...parts.flatMap(ofPart), { kind: 'template', text });
      at = end;
      continue;
    }
    TOKEN.lastIndex = at;
    const match = TOKEN.exec(source);
    at += match ? match[0].length : 1;
    const [kind, text] = Object.entries(match?.groups ?? {}).find(([, one]) => one) ?? ['comment'];
    if (kind !== 'comment') found.push({ kind, text });
  }
  return found;
}

const valueOf = (literal) => new Function(`return ${literal}`)();

// Literals that are added to one another are one.
function joined(tokens) {
  const found = [];
  for (const token of tokens) {
    const [before, sign] = found.slice(-2);
    const value = token.kind === 'text' ? valueOf(token.text) : token.text;
    if (token.kind === 'text' && before?.kind === 'text' && sign.text === '+') {
      found.splice(-2, 2, { kind: 'text', text: before.text + value });
    } else found.push({ kind: token.kind, text: value });
  }
  return found;
}

// Some words, a word with a capital, or the end of a sentence.
const WORDS = /\p{L}{2}[^\w\s]* \p{L}{2}|^\p{Lu}\p{Ll}+$|\p{L}{2}[.:?!]\s*$/u;

// What is compared with something is not shown.
const isShown = (call, before) => call?.argument >= SHOWN[call?.name] && before !== '=';

const isWords = (text, isGiven) => WORDS.test(text) || (isGiven && /\p{L}{2}/u.test(text));

// The texts that a module asks for, and others that look like words.
export function textsOfModule(source) {
  const asked = [];
  const others = [];
  const calls = [];
  let before;
  for (const { kind, text } of joined(tokensOf(source))) {
    const call = calls.at(-1);
    if (kind === 'sign' && '([{'.includes(text)) {
      calls.push({ name: text === '(' ? before : '', argument: 0 });
    } else if (kind === 'sign' && ')]}'.includes(text)) calls.pop();
    else if (text === ',' && call) call.argument += 1;
    else if (kind === 'text' && call?.argument < TEXTS[call?.name]) asked.push(text);
    else if (['text', 'template'].includes(kind) && isWords(text, isShown(call, before))) {
      others.push(text);
    }
    before = text;
  }
  return { asked, others };
}

const PIECE = /<(?<end>\/?)(?<tag>[a-z0-9]+)(?<attributes>[^>]*)>|(?<data>[^<]+)|<!doctype[^>]*>/g;
const ATTRIBUTE = /([a-z-]+)="([^"]*)"/g;
const VOID = new Set(['meta', 'link', 'input']);
const HIDDEN = new Set(['script', 'style', 'noscript', 'code']);

// The elements of the page, each with its text, in which its children are parts.
function elementsOf(page) {
  const open = [{ children: 0, text: '' }];
  const closed = [];
  for (const { groups: { end, tag, attributes, data } } of page.matchAll(PIECE)) {
    const parent = open.at(-1);
    if (data) parent.text += data;
    else if (end) closed.push(open.pop());
    else if (tag) {
      parent.text += `{${parent.children}}`;
      parent.children += 1;
      const isHidden = parent.isHidden || HIDDEN.has(tag);
      const element = { attributes, isHidden, children: 0, text: '' };
      if (VOID.has(tag)) closed.push(element);
      else open.push(element);
    }
  }
  return closed;
}

// The texts of the page itself, and of its attributes that are said.
export function textsOfPage(page, spoken) {
  return elementsOf(page).filter(({ isHidden }) => !isHidden).flatMap(({ attributes, text }) => {
    const said = [...attributes.matchAll(ATTRIBUTE)].filter(([, name]) => spoken.includes(name));
    return [text.replace(/\s+/g, ' ').trim(), ...said.map(([, , value]) => value)];
  }).filter((text) => /\p{L}{2}/u.test(text));
}
