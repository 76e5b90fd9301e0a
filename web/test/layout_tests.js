// What is in sight: sizes of windows, phones, frames, paper, pictures, and where the focus is.
import { clicks, count, focused, has, is, isShown, open, page, paste, picture, saved, text, write }
  from './drive.js';

const SHOWN = '&step=14&acts=0.1.2.3*300';

// Where an element ends, from the top of the page.
const bottomOf = (selector) => page.evaluate(`scrollY +
  document.querySelector(${JSON.stringify(selector)}).getBoundingClientRect().bottom`);

const LECTURES = [
  [1024, 768, 4], [1280, 768, 4], [1366, 768, 4], [1280, 1080, 8], [1920, 1080, 8],
];

export async function testLectures() {
  for (const [width, height, workers] of LECTURES) {
    await page.resize(width, height);
    await open(`#example=maximum&view=workers&workers=${workers}${SHOWN}`);
    const bottom = await bottomOf('#cards');
    is(`tree and workers within ${width} x ${height}`, bottom <= height || bottom, true);
    is(`the tree first at ${width}`, await bottomOf('#tree') < bottom, true);
    const header = await bottomOf('header');
    is(`one line of header at ${width}`, header < 45 || header, true);
    await page.sightPicture(`lecture-${width}x${height}-${workers}`);
    await page.click('#tab-lockstep');
    const memory = await bottomOf('#lockstep .picture');
    is(`the memory within ${width} x ${height}`, memory <= height || memory, true);
    await page.sightPicture(`lecture-${width}x${height}-lockstep`);
    await open('#example=prefix.pardo&step=12');
    await has('a program', '#plain-said', 'are active with h = 0');
    const program = await bottomOf('#lockstep .picture');
    is(`a program within ${width} x ${height}`, program <= height || program, true);
    await page.sightPicture(`lecture-${width}x${height}-program`);
  }
  await page.resize(1280, 900);
}

const BOXES = `[...document.querySelectorAll('#lockstep .cell, #strip li')].map((box) => {
  const { left, top, width, height } = box.getBoundingClientRect();
  return [left, top + scrollY, width, height].map(Math.round).join();
}).join(' ')`;

async function testBoxesOfProgram() {
  await open('#example=prefix.pardo');
  await has('by lines', '#step-name', 'lines done');
  const first = await page.evaluate(BOXES);
  for (let number = 1; number <= 10; number += 1) {
    await page.press('ArrowRight');
    is(`boxes stand still after ${number} lines`, await page.evaluate(BOXES) === first, true);
  }
}

export async function testBoxes() {
  await open('#example=maximum');
  const first = await page.evaluate(BOXES);
  for (let step = 1; step <= 20; step += 1) {
    await page.press('ArrowRight');
    const now = await page.evaluate(BOXES);
    is(`boxes stand still in step ${step}`, now === first, true);
  }
  await open('#example=conflict');
  const calm = await page.evaluate(BOXES);
  await page.click('#step-end');
  await has('a conflict', '#plain-said', 'Conflict: step 4');
  is('boxes stand still in a conflict', await page.evaluate(BOXES) === calm, true);
  await testBoxesOfProgram();
  is('arrows are in front', await page.evaluate(`(() => {
    const arrows = document.getElementById('arrows');
    const after = arrows.compareDocumentPosition(document.querySelector('#plain-cells')) & 2;
    return after > 0 && getComputedStyle(arrows).zIndex !== '-1';
  })()`), true);
}

// Each view with what is last in sight, the button that goes to the end, and what is said there.
const FRAMES = [
  ['lockstep', '#lockstep .picture', '#step-end', '#plain-said'],
  ['workers', '#cards', '#to-end', '#outcome'],
];

async function isInFrame(what, last) {
  const bottom = await bottomOf(last);
  is(`${what} within a frame of 960 x 540`, bottom <= 540 || bottom, true);
  const wide = await page.evaluate('document.documentElement.scrollWidth');
  is(`${what}: as wide as the frame`, wide <= 960 || wide, true);
}

export async function testFrame() {
  await page.resize(960, 540);
  for (const example of ['maximum', 'sum.pardo']) {
    for (const [view, last, end, said] of FRAMES) {
      const what = `${example}, ${view}`;
      await open(`#embed=1&example=${example}&view=${view}&workers=4${SHOWN}`);
      await isInFrame(what, last);
      is(`${what}: without the editor`, await isShown('#text'), false);
      await page.sightPicture(`frame-${example}-${view}`);
      await page.click(end);
      await has(`${what}: the end`, said, 'Done: ');
      await has(`${what}: what became of all`, said, ' had stopped after step ');
      await isInFrame(`${what} at the end`, last);
    }
  }
  await page.resize(1280, 900);
}

// The reference is in the page, as the documents have it.
export async function testReference() {
  await open('#example=sum.pardo');
  await page.click('#reference summary');
  await has('its language', '#reference-text', 'Reference');
  is('tables', await count('#reference-text table') > 5, true);
  is('the machine’s instructions', (await text('#reference-text')).includes('set r k'), true);
  is('no marks are left', /\*\*|`|\]\(|&nbsp;/.test(await text('#reference-text')), false);
  await page.sightPicture('reference');
  const wide = await page.evaluate('document.documentElement.scrollWidth');
  is('as wide as the page', wide <= 1280 || wide, true);
}

// The text alone, and beside the machine; and the keys of a remote control.
export async function testSlides() {
  await page.resize(960, 540);
  await open('#embed=text&example=sum.pardo');
  is('the text alone', await isShown('#text') && !await isShown('#machine'), true);
  await isInFrame('the text', '.editor');
  await page.sightPicture('slide-text');
  await open(`#embed=both&example=sum.pardo&view=lockstep&workers=4${SHOWN}`);
  is('both', await isShown('#text') && await isShown('#machine'), true);
  is('without buttons for the text', await isShown('#save-text'), false);
  await isInFrame('both', '.editor');
  const before = Number(await page.evaluate('document.getElementById("step").value'));
  await page.press('PageDown');
  const after = Number(await page.evaluate('document.getElementById("step").value'));
  is('on by a remote control', after, before + 1);
  await page.press('PageUp');
  is('and back', Number(await page.evaluate('document.getElementById("step").value')), before);
  await page.sightPicture('slide-both');
  await page.resize(1280, 900);
}

export async function testPaper() {
  await open(`#example=maximum&view=workers&workers=4${SHOWN}`);
  await page.call('Emulation.setEmulatedMedia', { media: 'print' });
  await page.evaluate('dispatchEvent(new Event("beforeprint"))');
  is('the whole text is printed', await text('#printed'),
    await page.evaluate('document.getElementById("text").value'));
  is('in sight', await isShown('#printed'), true);
  is('without controls', await isShown('#all-1'), false);
  is('with the tree', await isShown('#tree'), true);
  await picture('paper');
  await page.call('Emulation.setEmulatedMedia', { media: '' });
  await page.setScheme('light');
}

// In how many places an arrow of a drawing ends beside all of its boxes.
const ASTRAY = `(() => {
  const boxes = [...document.querySelectorAll('#printed-memory rect[rx]')]
    .map((one) => one.getBoundingClientRect());
  const ends = [...document.querySelectorAll('#printed-memory path[marker-end]')].flatMap((one) =>
    [0, one.getTotalLength()].map((at) => {
      const { x, y } = one.getPointAtLength(at);
      return new DOMPoint(x, y).matrixTransform(one.getScreenCTM());
    }));
  const isBeside = ({ x, y }) => !boxes.some(({ left, right, top, bottom }) =>
    x > left && x < right && y > top - 3 && y < bottom + 3);
  return [ends.length, ends.filter(isBeside).length].join();
})()`;

// On paper of another width the arrows end at their cells.
export async function testPaperOfMemory() {
  for (const scheme of ['light', 'dark']) {
    await page.setScheme(scheme);
    await open('#example=prefix.pardo&step=12');
    await has('a program', '#plain-said', 'are active with h = 0');
    await page.evaluate('dispatchEvent(new Event("beforeprint"))');
    await page.call('Emulation.setEmulatedMedia', { media: 'print' });
    await page.resize(720, 1000);
    is(`${scheme}: a drawing in place of the boxes`, [await isShown('#printed-memory svg'),
      await isShown('#lockstep .cell')].join(), 'true,false');
    is(`${scheme}: arrows that end at no cell`, await page.evaluate(ASTRAY), '42,0');
    const wide = await page.evaluate('document.documentElement.scrollWidth');
    is(`${scheme}: as wide as the paper`, wide <= 720 || wide, true);
    is(`${scheme}: on white`, await page.evaluate(
      'document.querySelector("#printed-memory rect").getAttribute("fill")'), 'rgb(255, 255, 255)');
    await picture(`paper-memory-${scheme}`);
    await page.call('Emulation.setEmulatedMedia', { media: '' });
    await page.evaluate('dispatchEvent(new Event("afterprint"))');
    is(`${scheme}: the boxes again`, await isShown('#lockstep .cell'), true);
    await page.resize(1280, 900);
  }
  await page.setScheme('light');
}

const PARSED = (file) => `new DOMParser().parseFromString(${JSON.stringify(file)}, 'image/svg+xml')
  .querySelectorAll('parsererror, script').length`;

// The words of a drawing, line by line.
const wordsOf = (file) => [...file.matchAll(/<text[^>]*>([^<]*)</g)].map(([, one]) => one).join(' ');

export async function testSavedPictures() {
  await open('#example=conflict');
  await page.click('#step-end');
  const memory = await saved('#save-memory', 'memory.svg');
  is('a picture of the conflict', memory.includes('Conflict: step 4'), true);
  is('with arrows', memory.includes('marker-end'), true);
  is('and all who write', wordsOf(memory).includes('At 0: written by P0-3.'), true);
  is('that is sound', await page.evaluate(PARSED(memory)), 0);
  await open(`#example=maximum&view=workers&workers=4${SHOWN}`);
  const tree = await saved('#save-tree', 'tree.svg');
  is('a picture of the tree', tree.includes('nodes are finished'), true);
  is('that is sound', await page.evaluate(PARSED(tree)), 0);
}

const SMALL = `[...document.querySelectorAll('button, select, summary, input')]
  .filter((one) => {
    const { width, height } = one.getBoundingClientRect();
    return one.checkVisibility() && Math.min(width, height) < 44;
  }).map((one) => one.id || one.textContent).join()`;

export async function testPhone() {
  await page.resize(390, 844);
  for (const view of ['lockstep', 'workers']) {
    for (const example of ['maximum', 'prefix.pardo']) {
      await open(`#example=${example}&view=${view}&workers=4${SHOWN}`);
      await has(example, '#answer', 'done after');
      is(`${view}: controls of 44 pixels`, await page.evaluate(SMALL), '');
      const wide = await page.evaluate('document.documentElement.scrollWidth');
      is(`${example}: ${view} fits a phone`, wide <= 390 || wide, true);
    }
  }
  await page.resize(1280, 900);
}

// What is said beside a button, if both are in sight; `top` is how far the page is scrolled down.
const besideAt = (button, top) => `(() => {
  scrollTo(0, ${top} * document.documentElement.scrollHeight);
  const button = document.querySelector('${button}');
  const said = button.parentElement.querySelector('.at-work');
  const isInSight = (one) => {
    const { left, top, width, height } = one.getBoundingClientRect();
    return one.contains(document.elementFromPoint(left + width / 2, top + height / 2)) &&
      top >= 0 && top + height <= innerHeight && left >= 0 && left + width <= innerWidth;
  };
  return [button, said].every(isInSight) ? said.textContent : 'out of sight';
})()`;

// How high above the bar of a button an element ends.
const above = (button, selector) => page.evaluate(`(() => {
  const end = document.querySelector('${selector}').getBoundingClientRect().bottom;
  return document.querySelector('${button}').parentElement.getBoundingClientRect().top - end;
})()`);

const AT_HAND = [
  ['lockstep', '#step-on', '12: A[i] := A[i] + A[i - 1 << h] (P1-7)', '14: end (P0-7)'],
  ['workers', '#all-1', '10: for h = 0 to lg(n) - 1 (step 1)', '10: for h = 0 to lg(n) - 1 (step 1)'],
];

// The button of a step is in sight with the line that is at work, wherever the page is scrolled to.
export async function testPhoneSteps() {
  for (const [width, height] of [[360, 640], [390, 844]]) {
    await page.resize(width, height);
    for (const [view, button, before, after] of AT_HAND) {
      const what = `${view}, ${width} x ${height}`;
      await open(`#example=prefix.pardo&view=${view}&workers=4${SHOWN.replace('14', '12')}`);
      await page.until('document.querySelector(".at-work").textContent !== ""', 5);
      for (const top of [1, 0.5, 0]) {
        is(`${what}: step and line at ${top}`, await page.evaluate(besideAt(button, top)), before);
        await page.sightPicture(`phone-${width}-${view}-${top}`);
      }
      const line = await above(button, '.mark.current');
      is(`${what}: with the line in the text`, line >= 0 || line, true);
      await page.click(button);
      is(`${what}: a step`, await page.evaluate(besideAt(button, 1)), after);
      const last = await above(button, 'main');
      is(`${what}: nothing stays below`, last >= 0 || last, true);
    }
  }
  await page.resize(1280, 900);
  is('on a wide screen the text has it alone', await isShown('.at-work'), false);
}

export async function testFocus() {
  await open('#example=maximum');
  await page.click('#step-end');
  is('at the end', await focused(), 'step-end');
  await page.click('#step-back');
  await page.click('#step-start');
  is('at the start', await focused(), 'step-start');
  await page.press('ArrowRight');
  is('keys go on', await page.evaluate('document.getElementById("step").value'), '1');
  await open(`#example=maximum&view=workers&workers=2&acts=0.1*9`);
  await page.click('#cards li:nth-child(1) [data-action=twin]');
  await page.click('#cards li:nth-child(3) [data-action=step]');
  await page.press('Home');
  is('a card that goes', await focused(), 'workers');
  await page.press('End');
  await page.click('#cards li:nth-child(2) [data-action=if]');
  await has('what if', '#outcome', 'What if');
  await page.click('#before');
  is('a button that goes', await focused(), 'workers');
  await page.click('#moment-start');
  await page.click('#cards li:nth-child(1) [data-action=twin]');
  await page.click('#moment-back');
  await page.click('#plan-part summary');
  await page.evaluate('document.getElementById("plan").focus()');
  await page.press('ArrowRight');
  await has('a plan that goes', '#plan-said', 'A plan has no twins');
  is('is left', await focused(), 'workers');
}

const focusOn = (selector) =>
  page.evaluate(`document.querySelector(${JSON.stringify(selector)}).focus()`);

// The bar of a window goes with a long list.
export async function testFocusOfWindows() {
  await open('#example=maximum');
  await write('pram 1\ncells 100\nprocs 40\nsteps 2\ncode\nhalt\n');
  await focusOn('#plain-cells .bar button');
  await page.chord('z');
  await has('fewer cells', '#answer', '16 cells');
  is('a bar of cells that goes', await focused(), 'lockstep');
  await page.evaluate(paste(`'; a line\\n'.repeat(4000)`));
  await has('a long text', '#fault', 'Line ');
  await focusOn('#lines button');
  await page.chord('z');
  await has('a short text', '#answer', '16 cells');
  is('a bar of lines that goes', await focused(), 'text');
}

const CONTROLS = `[...document.querySelectorAll('button:not([role=tab]), summary, input')]`;

// Each control that is in sight at first is pressed by keys, while it is there.
async function pressEach(what) {
  const all = await page.evaluate(`${CONTROLS}.filter((one) => one.checkVisibility())
    .map((one, k) => one.dataset.nth = k).length`);
  const lost = [];
  for (let k = 0; k < all; k += 1) {
    const name = await page.evaluate(`(() => {
      const one = document.querySelector('[data-nth="${k}"]');
      one?.focus();
      return one === document.activeElement ? one.id || one.textContent || one.type : '';
    })()`);
    if (name !== '') {
      await page.press('Enter', 'Enter', '\r');
      await page.press(' ', 'Space', ' ');
      if (await page.evaluate('document.activeElement === document.body')) lost.push(name);
    }
  }
  is(`${what}: controls`, all > 20 || all, true);
  is(`${what}: each keeps the focus, or hands it on`, lost.join(), '');
}

export async function testFocusOfEach() {
  for (const example of ['maximum', 'prefix.pardo']) {
    for (const view of ['lockstep', 'workers']) {
      await open(`#example=${example}&view=${view}&workers=3${SHOWN.replace('.3', '')}`);
      await has(`${example}, ${view}`, '#answer', 'done after');
      await pressEach(`${example}, ${view}`);
    }
  }
}

// What eyes that lack one kind of cone make of a colour, in linear light.
const EYES = {
  all: [[1, 0, 0], [0, 1, 0], [0, 0, 1]],
  protan: [[0.152, 1.053, -0.205], [0.115, 0.786, 0.099], [-0.004, -0.048, 1.052]],
  deutan: [[0.367, 0.861, -0.228], [0.28, 0.673, 0.047], [-0.012, 0.043, 0.969]],
  tritan: [[1.256, -0.077, -0.179], [-0.078, 0.931, 0.148], [0.005, 0.691, 0.304]],
};
const linear = (value) => (value / 255) ** 2.2;
const shown = (value) => 255 * Math.max(0, Math.min(1, value)) ** (1 / 2.2);
const seenBy = (eyes, colour) =>
  eyes.map((row) => shown(row.reduce((sum, part, k) => sum + part * linear(colour[k]), 0)));
const distance = (one, other) => Math.hypot(...one.map((part, k) => part - other[k]));

function leastDistance(eyes, colours) {
  const seen = colours.map((colour) => seenBy(eyes, colour));
  return Math.min(...seen.flatMap((one, k) =>
    seen.slice(k + 1).map((other) => distance(one, other))));
}

const COLOURS = `['.node.pass0 circle, .block.pass0', '.key.pass1', '.key.pass2', '.key.pass3']
  .map((one) => document.querySelector(one)).filter(Boolean).map((one) => {
    const { fill, backgroundColor } = getComputedStyle(one);
    return (one.tagName === 'SPAN' ? backgroundColor : fill).match(/\\d+/g).slice(0, 3).map(Number);
  })`;

// What is told of what one points at in a drawing: its first words.
async function pointedAt(selector, right, down) {
  const [x, y] = await page.evaluate(`(() => {
    const { x, y, width, height } =
      document.querySelector(${JSON.stringify(selector)}).getBoundingClientRect();
    return [x + ${right} * width, y + ${down} * height];
  })()`);
  await page.call('Input.dispatchMouseEvent', { type: 'mouseMoved', x, y });
  const title = await page.evaluate(`document.elementFromPoint(${x}, ${y})
    .closest(':has(> title)')?.querySelector('title').textContent ?? ''`);
  return title.slice(0, 32);
}

// Of a board of 1,024 processors each of the three passes has a colour of its own, and bars in it.
export async function testManyColours() {
  const head = 'pram 1\\ncells 4\\nprocs 1024\\nsteps 9\\ncode\\npid r0\\nhalt\\n';
  await open('#example=maximum&view=workers&workers=4');
  await page.evaluate(`(() => {
    const area = document.getElementById('text');
    area.value = '${head}';
    area.dispatchEvent(new InputEvent('input', { bubbles: true }));
  })()`);
  await has('many processors', '#tree-summary', '2,047 nodes');
  await page.click('#next-finish');
  await has('a step', '#outcome', 'Finished: 1 of 9');
  await clicks('#all-100', 30);
  is('bars', await page.evaluate(`[...document.querySelectorAll('.block')]
    .map((one) => one.getAttribute('d').split('M').length - 1).reduce((sum, one) => sum + one)`),
  2047);
  await page.sightPicture('many');
  is('a bar says what it is', await pointedAt('#tree', 0.5, 0.15), 'the root: finished up to step 1,');
  await page.click('#moment-start');
  for (const scheme of ['light', 'dark']) {
    await page.setScheme(scheme);
    const colours = await page.evaluate(COLOURS);
    is(`colours when it is ${scheme}`, colours.length, 4);
    for (const [name, eyes] of Object.entries(EYES)) {
      const least = leastDistance(eyes, colours);
      is(`${scheme}: colours apart for ${name}`, least > 40 || least, true);
    }
  }
  await page.setScheme('light');
}
