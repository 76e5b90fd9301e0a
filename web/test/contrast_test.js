// contrast_test.js PAGE: how well the colours of the page's style are told apart, in Node: texts,
// edges of controls and what a drawing is made of, in each of its schemes.
import { readFileSync } from 'node:fs';
import { report } from './report.js';

const [pagePath] = process.argv.slice(2);
const { is, end } = report();

// The least ratios of WCAG 2, level AA. A colour of a text comes with what it stands on, and one
// that is stood on with its texts; one of an edge or a drawing comes with what is beside it.
const text = (...others) => ({ least: 4.5, others });
const mark = (...others) => ({ least: 3, others });
const SURFACES = ['ground', 'paper'];
const edge = mark(...SURFACES);

// Colours that nothing hangs on, each with what it is or what tells the same.
const free = (why) => ({ why });
const RULED = free('a line between parts');
const IDLE = free('a control that does nothing now');
const TOLD = free('the words above the drawing');

// What each colour of the style is for, by selector and property.
const USES = {
  'body | color': text(...SURFACES, 'new', 'lit', 'bad-ground'),
  'body | background': text('ink', 'faint', 'accent', 'bad'),
  'header details | color': text('ground'),
  'header details p | color': text('paper'),
  'header details p | background': text('ink'),
  'header details p | border': RULED,
  'header details p | box-shadow': RULED,
  '#reference | color': text('ground'),
  '#reference-text | background': text('ink', 'faint', 'accent'),
  '#reference-text | border': RULED,
  '#growth-plot | background': text('faint', 'accent', 'read', 'write'),
  '#growth-plot | border': RULED,
  '.growth.beside | stroke': mark('paper'),
  'path.cost0 | stroke': mark('paper'),
  'path.cost1 | stroke': mark('paper'),
  'path.cost2 | stroke': mark('paper'),
  'text.cost0 | fill': text('paper'),
  'text.cost1 | fill': text('paper'),
  'text.cost2 | fill': text('paper'),
  'text.beside | fill': text('paper'),
  'a | color': text(...SURFACES),
  'button, select, input | background': text('ink'),
  'button, select, input | border': edge,
  'button:hover | border-color': edge,
  "[aria-disabled='true'] | opacity": IDLE,
  "[aria-disabled='true'] | border-color": IDLE,
  "button[aria-pressed='true'] | background": text('paper'),
  "button[aria-pressed='true'] | color": text('accent'),
  ':focus-visible | outline': edge,
  '.at-hand | background': text('ink'),
  '.at-hand | border-top': edge,
  '.bad | color': text(...SURFACES, 'bad-ground'),
  '.said | background': text('ink', 'bad'),
  '.said.bad | background': text('bad'),
  '#lesson-panel | background': text('ink'),
  '#lesson-panel | border': edge,
  '#lesson-said | background': text('ink'),
  '.said.right | background': text('ink'),
  '.editor | background': text('ink', 'faint'),
  '.editor | border': edge,
  '.gutter | color': text('paper'),
  '.gutter | border-right': RULED,
  '.line-number .stop::before | color': mark('paper'),
  '.line-number .stop::before | opacity': free('no stop'),
  '.line-number .stop:hover::before | opacity': free('a stop that is not set yet'),
  '.line-number.stops .stop::before | opacity': mark('paper'),
  '.line-number .number:hover | color': text('paper'),
  '.line-number.next:not(.stops) .stop::before | color': mark('paper'),
  '.line-number.next:not(.stops) .stop::before | opacity': mark('paper'),
  '.line-number.fault .stop::before | color': mark('bad'),
  '.line-number.fault | background': text('paper'),
  '.line-number.fault | color': text('bad'),
  '.line-number.current, .line-number.clash | color': text('paper'),
  '.line-number .heat | color': text('paper', 'hot', 'warm'),
  '.line-number .heat | background': free('the numbers in it'),
  '.paper textarea:not(.plain) | caret-color': mark('paper'),
  '.paper textarea:not(.plain)::selection | background': text('ink'),
  '#colours .word | color': text('paper'),
  '#colours .number | color': text('paper'),
  '#colours .comment | color': text('paper'),
  '.of-block .word:first-of-type | outline': mark('paper'),
  '#machine[data-stale] | outline': edge,
  '.editor:focus-within | outline': edge,
  '.mark.fault, .mark.clash | background': text('ink', 'accent', 'digit'),
  '.mark.current | background': text('ink', 'accent', 'digit', 'faint'),
  '.badge | color': text('paper'),
  '.badge | background': text('read', 'bad'),
  '.mark.clash .badge | color': text('paper'),
  '.tabs | border-bottom': RULED,
  ".tabs [aria-selected='true'] | background": text('paper'),
  ".tabs [aria-selected='true'] | color": text('accent'),
  '.legend | color': text(...SURFACES),
  '#tree-summary | color': text('ground'),
  '.key | border': edge,
  '.key | color': text('ground', 'new', 'bad-ground', 'line'),
  '.cell | border': edge,
  '.cell | background': text('ink', 'faint'),
  '.cell-number | color': text('paper', 'new', 'bad-ground'),
  '.cell-note | color': text('paper', 'new', 'bad-ground'),
  '.is-new | background': text('ink', 'faint'),
  '.is-new | box-shadow': mark('paper', 'new'),
  '.is-read | border-color': edge,
  '.is-written | border-color': edge,
  '.is-read.is-written | border-color': edge,
  '.is-disputed | border-color': edge,
  '.is-disputed | background': text('ink', 'faint'),
  '#strip li | background': text('ink', 'bad'),
  '#strip li | border': edge,
  '#strip .stopped | color': text('ground'),
  '#strip .is-active | background': text('ink'),
  '#strip .is-active | border-color': mark('ground'),
  '#strip .clash | border-color': edge,
  '#strip .clash | color': text('paper'),
  '.arrow | opacity': { ...edge, faded: ['read', 'write', 'bad'] },
  '.arrow.read | stroke': edge,
  '.arrow.write | stroke': edge,
  '.arrow.clash | stroke': edge,
  '.head.read | fill': edge,
  '.head.write | fill': edge,
  '.head.clash | fill': edge,
  '#plot | background': mark('edge', 'read', 'write'),
  '#plot | border': edge,
  '#plot .now | fill': free('its own edge'),
  '#plot .now | fill-opacity': free('its own edge'),
  '#plot .now | stroke': mark('paper'),
  '.bars.running | fill': mark('read', 'write'),
  '.bars.running | stroke': mark('paper'),
  '.key.running | background': text('ink'),
  '.bars.reading | fill': mark('paper', 'line'),
  '.bars.writing | fill': mark('paper', 'line'),
  '.key.reading | border-color': edge,
  '.key.writing | border-color': edge,
  '#cost-numbers dt | color': text('ground'),
  'th, td | border-bottom': RULED,
  'thead th | color': text('ground'),
  'tr.stopped td | color': text('ground'),
  'tr.is-active th | background': text('ink'),
  '.card | background': text('ink', 'faint'),
  '.card | border': edge,
  '.card | border-left': edge,
  '.standing | color': text('paper'),
  '.dot | background': mark('paper'),
  '.dot | color': text('worker'),
  '.card.asleep .dot, .card.lost .dot | color': text('paper'),
  '.card.asleep .dot, .card.lost .dot | outline': mark('paper'),
  '.edges | stroke': mark('ground'),
  '.node circle | stroke': mark('ground'),
  '.node circle | fill': text('ink'),
  '.node text | fill': text('pass1', 'pass2', 'pass3'),
  '.node.pass0 text | fill': text('blank'),
  '.node.pass1 circle, .block.pass1 | fill': text('on-pass'),
  '.node.pass2 circle, .block.pass2 | fill': text('on-pass'),
  '.node.pass3 circle, .block.pass3 | fill': text('on-pass'),
  '.block.pass0 | fill': TOLD,
  '.block.edged | stroke': RULED,
  '.block.spare | opacity': TOLD,
  '.key.pass1 | background': text('on-pass'),
  '.key.pass2 | background': text('on-pass'),
  '.key.pass3 | background': text('on-pass'),
  '.key.pass1, .key.pass2, .key.pass3 | color': text('pass1', 'pass2', 'pass3'),
  '.leaf-names text | fill': text('ground'),
  '.body circle | fill': edge,
  '.body circle | stroke': free('a gap between circles'),
  '.body text | fill': text('worker'),
  '.body.twin circle | stroke': mark('ground'),
  '.listing | background': text('ink', 'faint', 'accent'),
  '.listing li | border-bottom': RULED,
  '.listing .changes | border-left': mark('paper'),
  '.moment | color': text('paper'),
  '.to-moment:hover | color': text('paper'),
  '#place-drawing text | fill': text('ground', 'blank'),
  '.stretch rect | stroke': mark('ground', 'blank'),
  '.stretch rect | fill': text('ink'),
  '.stretch.odd rect | fill': text('ink'),
  '.stretch.newer rect | stroke': mark('ground', 'blank'),
  '#plan | background': text('ink'),
  '#plan | border': RULED,
  'kbd | border': RULED,
};

// ---- what the style says

const HAS_COLOUR = /var\(--|#[\da-f]{3}|color-mix/;

// The declarations of a rule: name and value.
const declarationsOf = (body) => body.split(';').map((one) => one.trim()).filter(Boolean)
  .map((one) => [one.slice(0, one.indexOf(':')), one.slice(one.indexOf(':') + 1).trim()]);

// All rules, those for some screens among them.
function rulesOf(page) {
  const [, style] = /<style>([^]*?)<\/style>/.exec(page);
  return [...style.replace(/\/\*[^]*?\*\//g, '').matchAll(/([^{}]+)\{([^{}]*)\}/g)]
    .map(([, selector, body]) => [selector.trim().replace(/\s+/g, ' '), declarationsOf(body)]);
}

// The colours that have names, by scheme: of each name a list.
function schemesOf(rules) {
  const named = (wanted) => rules.filter(([selector]) => selector === wanted)
    .map(([, list]) => list.filter(([name]) => name.startsWith('--'))
      .map(([name, value]) => [name.slice(2), [rgbOf(value)]]));
  const workers = rules.filter(([selector]) => selector.startsWith('.worker'))
    .map(([, [[, value]]]) => rgbOf(value));
  const [light, dark, printed] = named(':root');
  const [paper] = named(':root[data-paper]');
  const scheme = (...lists) => new Map([...lists.flat(), ['worker', workers]]);
  return { light: scheme(light), dark: scheme(light, dark), printed: scheme(light, printed),
    'on paper': scheme(light, paper) };
}

function rgbOf(word) {
  const digits = word.length === 4 ? [...word.slice(1)].map((one) => one + one).join('')
    : word.slice(1);
  return [0, 2, 4].map((at) => parseInt(digits.slice(at, at + 2), 16));
}

// A colour of which a part is left, over another one.
const over = (colour, part, ground) =>
  colour.map((value, k) => part * value + (1 - part) * ground[k]);

const COLOUR =
  /color-mix\(in srgb, var\(--([\w-]+)\) (\d+)%, (?:var\(--)?([\w-]+)\)*|var\(--([\w-]+)\)|#[\da-f]+/g;

// The colours of a value; what is mixed with nothing has paper under it.
const coloursOf = (value, scheme) =>
  [...value.matchAll(COLOUR)].flatMap(([word, mixed, part, other, name]) => {
    if (name) return scheme.get(name);
    if (!mixed) return [rgbOf(word)];
    const [ground] = scheme.get(other === 'transparent' ? 'paper' : other);
    return scheme.get(mixed).map((one) => over(one, part / 100, ground));
  });

// ---- how far they are apart

const linear = (value) =>
  (value <= 10.31475 ? value / 255 / 12.92 : ((value / 255 + 0.055) / 1.055) ** 2.4);
const lightOf = ([red, green, blue]) =>
  0.2126 * linear(red) + 0.7152 * linear(green) + 0.0722 * linear(blue);

function ratio(one, other) {
  const [low, high] = [lightOf(one), lightOf(other)].sort((first, second) => first - second);
  return (high + 0.05) / (low + 0.05);
}

// The ratios of a value's colours to each of the others. `faded` has those that an opacity is of.
function ratiosOf(value, { others, faded }, scheme) {
  const beside = others.flatMap((name) => scheme.get(name));
  if (!faded) return coloursOf(value, scheme).flatMap((one) => beside.map((other) => ratio(one, other)));
  return faded.flatMap((name) => scheme.get(name))
    .flatMap((one) => beside.map((other) => ratio(over(one, Number(value), other), other)));
}

function testRatios() {
  is('black on white', ratio([0, 0, 0], [255, 255, 255]), 21);
  is('grey on white', ratio(rgbOf('#767676'), rgbOf('#fff')).toFixed(2), '4.54');
}

function testColours(page) {
  const rules = rulesOf(page);
  const schemes = Object.entries(schemesOf(rules));
  is('workers', schemes[0][1].get('worker').length, 8);
  const known = new Set(Object.keys(USES));
  for (const [selector, list] of rules) {
    for (const [name, value] of list) {
      const isOne = !name.startsWith('--') && (HAS_COLOUR.test(value) || name.endsWith('opacity'));
      if (isOne) testUse(`${selector} | ${name}`, value, schemes, known);
    }
  }
  is('uses of no colour', [...known].join('; '), '');
}

function testUse(what, value, schemes, known) {
  const use = USES[what];
  known.delete(what);
  is(`${what} has a use`, use !== undefined, true);
  if (!use?.least || (value === '1' && !use.faded)) return;
  for (const [name, scheme] of schemes) {
    const least = Math.min(...ratiosOf(value, use, scheme));
    is(`${what}, ${name}`, least >= use.least || least.toFixed(2), true);
  }
}

testRatios();
testColours(readFileSync(pagePath, 'utf8'));
end();
