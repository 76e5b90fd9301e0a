// No work is lost: drafts, undo, and the browser's history.
import { clicks, count, folders, has, is, isShown, isTold, open, page, paste, reload, text, valueOf,
  write } from './drive.js';

const HEAD = 'pram 1\ncells 2\nprocs 2\nsteps 2\ncode\n';
const OWN = `; mine\n${HEAD}pid r0\nhalt\n`;

const chosen = () => text('#example option:checked');

async function chooseOwn(title) {
  const value = await page.evaluate(`[...document.querySelectorAll('#example option')]
    .find((option) => option.textContent === ${JSON.stringify(title)})?.value`);
  await page.choose('#example', value ?? '');
}

export async function testDrafts() {
  await open();
  await write(OWN);
  is('an own text is one’s own', await chosen(), 'your own: mine');
  await page.choose('#example', 'sum');
  is('the gallery', await valueOf('#text') === OWN, false);
  await chooseOwn('your own: mine');
  is('the own text again', await valueOf('#text'), OWN);
  await page.choose('#example', 'sum');
  await page.click('#text');
  await page.insert('; changed\n');
  await page.until('!document.getElementById("text").classList.contains("waits")');
  is('a changed program is an own one', (await chosen()).startsWith('your own: '), true);
  await chooseOwn('your own: mine');
  is('the first own one stays', await valueOf('#text'), OWN);
  await page.until('false', 0.5);
  await open();
  await chooseOwn('your own: mine');
  is('it is there when the page is opened anew', await valueOf('#text'), OWN);
  await write(`; at once\n${HEAD}halt\n`);
  await open();
  await chooseOwn('your own: at once');
  is('what was written just now, too', await valueOf('#text'), `; at once\n${HEAD}halt\n`);
  await chooseOwn('your own: mine');
  await write('; another\n' + HEAD.replace('procs 2', 'procs 1') + 'set r1 7\nset r2 9\nhalt\n');
  await write('');
  await write(`; a third\n${HEAD}halt\n`);
  await chooseOwn('your own: mine');
  is('what is written over it is another one', await valueOf('#text'), OWN);
  await page.choose('#example', 'new');
  await has('a new program', '#answer', 'done after');
}

// A file of this name with these bytes is chosen, or dropped on the page.
const FILE = (name, bytes) => `(() => {
  const files = new DataTransfer();
  files.items.add(new File([new Uint8Array(${JSON.stringify([...bytes])})], '${name}'));
  return files;
})()`;
const bytesOf = (words) => new TextEncoder().encode(words);
const choose = (name, bytes) => page.evaluate(`(() => {
  const choice = document.getElementById('file');
  choice.files = ${FILE(name, bytes)}.files;
  choice.dispatchEvent(new Event('change'));
})()`);
const drop = (name, bytes) => page.evaluate(`document.getElementById('text').dispatchEvent(
  new DragEvent('drop', { dataTransfer: ${FILE(name, bytes)}, bubbles: true, cancelable: true }))`);

export async function testFiles() {
  await open();
  const chosenText = `; from a file\r\n${HEAD}halt\n`;
  await choose('mine.pram', bytesOf(chosenText));
  await has('a chosen file', '#file-said', 'mine.pram is open.');
  is('its text', await valueOf('#text'), chosenText.replace('\r', ''));
  is('it is one’s own', await chosen(), 'your own: from a file');
  await drop('other.pram', bytesOf(`; dropped\n${HEAD}set r0 1\nhalt\n`));
  await has('a dropped one', '#file-said', 'other.pram is open.');
  is('is one’s own, too', await chosen(), 'your own: dropped');
  await page.click('#undo-text');
  is('undo goes back to the other', await valueOf('#text'), chosenText.replace('\r', ''));
  await choose('bytes.pram', [0x70, 0xff]);
  await has('no text', '#file-said', 'bytes.pram is no text: its bytes are not UTF-8.');
  is('which changes nothing', await valueOf('#text'), chosenText.replace('\r', ''));
}

const PARDO = 'pardo 1\nrule common\nprocs i < 4\nshared A[4]\ncode\n';
const enter = () => page.press('Enter', 'Enter', '\r');

// What Enter writes: the indent, more in a block, and the end of one that has none.
export async function testEnter() {
  await open();
  await write(PARDO);
  await page.insert('if i > 1');
  await enter();
  await page.insert('A[i] := 1');
  is('a block is closed', await valueOf('#text'), `${PARDO}if i > 1\n   A[i] := 1\nend`);
  await enter();
  await page.insert('for k = 0 to 3');
  await enter();
  await page.insert('A[i] := k');
  is('another in it', await valueOf('#text'),
    `${PARDO}if i > 1\n   A[i] := 1\n   for k = 0 to 3\n      A[i] := k\n   end\nend`);
  await page.click('#undo-text');
  await write(`${PARDO}if i > 1\n   A[i] := 1\nend\n`);
  await page.evaluate(`document.getElementById('text').setSelectionRange(
    ${PARDO.length + 8}, ${PARDO.length + 8})`);
  await enter();
  await page.insert('A[0] := 2');
  is('no second end', await valueOf('#text'),
    `${PARDO}if i > 1\n   A[0] := 2\n   A[i] := 1\nend\n`);
  await write(OWN);
  await enter();
  is('a text of the machine', await valueOf('#text'), `${OWN}\n`);
}

const KEY = '"kaolinsilk drafts"';
const kept = () => page.evaluate(`JSON.parse(localStorage.getItem(${KEY}))
  .map(({ text }) => text).join('===')`);

// Another page changes the program that was written last.
const changeElsewhere = (to) => page.evaluate(`(() => {
  const list = JSON.parse(localStorage.getItem(${KEY}));
  list[0].text = ${JSON.stringify(to)};
  localStorage.setItem(${KEY}, JSON.stringify(list));
})()`);

const isText = (text) =>
  page.until(`document.getElementById("text").value === ${JSON.stringify(text)}`, 5);

async function writeAtStart(words) {
  await page.evaluate('document.getElementById("text").focus()');
  await page.evaluate('document.getElementById("text").setSelectionRange(0, 0)');
  await page.insert(words);
  await page.until('false', 0.5);
}

// What another page made of a program is not overwritten, nor is what is made of it here lost.
export async function testDraftsOfTwoPages() {
  await open();
  await page.evaluate('localStorage.clear()');
  await open();
  await write(OWN);
  await page.until('false', 0.5);
  is('it is kept', await kept(), OWN);
  await changeElsewhere('; theirs\n');
  await page.choose('#example', 'new');
  await writeAtStart('; other\n');
  is('theirs stays', (await kept()).includes('; theirs\n'), true);
  await page.chord('z');
  await page.chord('z');
  is('undone to what was written', await valueOf('#text'), OWN);
  await writeAtStart('; more\n');
  is('theirs stays again', (await kept()).includes('; theirs\n'), true);
  is('beside what is written here', (await kept()).includes(`; more\n${OWN}`), true);
  is('and is shown', await chosen(), 'your own: more');
  await writeAtStart('; still\n');
  is('it is one program', (await kept()).split('===').length, 3);
  is('that goes on', (await kept()).includes(`; still\n; more\n${OWN}`), true);
  await page.choose('#example', 'sum');
  await chooseOwn('your own: still');
  is('it is there', await valueOf('#text'), `; still\n; more\n${OWN}`);
  await changeElsewhere('; theirs, too\n');
  await reload();
  is('loaded anew it shows what it showed', await valueOf('#text'), `; still\n; more\n${OWN}`);
  await writeAtStart('; last\n');
  is('theirs stays once more', (await kept()).includes('; theirs, too\n'), true);
  is('beside what goes on here', (await kept()).includes(`; last\n; still\n; more\n${OWN}`), true);
  await page.evaluate('localStorage.clear()');
}

const changeName = async (tab, name) => {
  await tab.choose('#example', 'rename');
  await tab.evaluate('document.getElementById("rename-name").select()');
  await tab.insert(name);
  await tab.press('Enter', 'Enter', '\r');
};

export async function testRenameAndDelete() {
  await open();
  await page.evaluate('localStorage.clear()');
  await open();
  is('a program of the gallery has no name of one’s own', await count('[value=rename]'), 0);
  await write(OWN);
  await changeName(page, 'My best');
  is('renamed', await chosen(), 'your own: My best');
  await writeAtStart('; changed\n');
  is('the name stays', await chosen(), 'your own: My best');
  await reload();
  is('it is kept', await chosen(), 'your own: My best');
  await page.choose('#example', 'delete');
  await has('deleted', '#deleted-said', '“My best” is deleted.');
  is('its text is still shown', await valueOf('#text'), `; changed\n${OWN}`);
  is('by its name', await chosen(), 'deleted: My best');
  is('nothing is kept', await kept(), '');
  await page.choose('#example', 'sum');
  await page.click('#undelete');
  is('it is there again', await kept(), `; changed\n${OWN}`);
  is('nothing more was deleted', await isShown('#deleted'), false);
  await chooseOwn('your own: My best');
  is('with its text', await valueOf('#text'), `; changed\n${OWN}`);
  await changeName(page, '');
  is('without a name', await chosen(), 'your own: changed');
  await page.choose('#example', 'delete');
  await page.chord('z');
  is('an undo of the text brings none back', await kept(), '');
  await page.evaluate('localStorage.clear()');
}

const isIn = (tab, expression) => tab.until(expression, 5);

// Two tabs have the same programs at any time.
export async function testTwoTabs() {
  await open();
  await page.evaluate('localStorage.clear()');
  await open();
  await write(OWN);
  await page.until('false', 0.5);
  await page.withAnother(async (other) => {
    await other.open(folders.address);
    const own = await other.evaluate('document.querySelector("#example [value^=own]").value');
    await other.choose('#example', own);
    const isText = (tab, words) =>
      isIn(tab, `document.getElementById('text').value === ${JSON.stringify(words)}`);
    is('both show it', await isText(other, OWN), true);
    await changeName(other, 'Ours');
    is('a name', await isIn(page, `document.querySelector('#example option:checked')
      .textContent === 'your own: Ours'`), true);
    await other.evaluate('document.getElementById("text").setSelectionRange(0, 0)');
    await other.evaluate('document.getElementById("text").focus()');
    await other.insert('; there\n');
    is('what is written', await isText(page, `; there\n${OWN}`), true);
    await page.chord('z');
    is('an undo', await isText(other, OWN), true);
    await other.choose('#example', 'delete');
    is('what is deleted', await isIn(page, '!document.querySelector("#example [value^=own]")'), true);
    is('its text stays', await valueOf('#text'), OWN);
    await other.click('#undelete');
    is('and is there again', await isIn(page, '!!document.querySelector("#example [value^=own]")'),
      true);
    is('by its name', await chosen(), 'your own: Ours');
    await page.insert('; here\n');
    is('on it goes', await isIn(other, `document.getElementById('text').value
      .includes('; here')`), true);
    is('no exception there', other.exceptions.join(), '');
  });
  is('it is one program', (await kept()).split('===').length, 1);
  await page.evaluate('localStorage.clear()');
}

// Long programs that the browser has no room for take none of the others'.
export async function testLongDrafts() {
  await open();
  await page.evaluate('localStorage.clear()');
  await open();
  await write(OWN);
  for (const word of ['one', 'two']) {
    await page.choose('#example', 'new');
    await page.evaluate(paste(`'; ${word}\\n'.repeat(200000)`));
    await has(`long ${word}`, '#fault', 'Line ');
    await page.until('false', 1);
    is(`it is said that not all are kept: ${word}`, await isShown('#unkept'), word === 'two');
  }
  await open();
  await chooseOwn('your own: mine');
  is('a short one is there', await valueOf('#text'), OWN);
}

// The last hundred are kept. Of others it is said that they are not, and they last as long as the
// page.
export async function testManyDrafts() {
  await open();
  await page.evaluate(`localStorage.setItem(${KEY}, JSON.stringify(
    Array.from({ length: 100 }, (_, k) => ({ number: 100 - k, text: '; old ' + (100 - k) }))))`);
  await open();
  is('a hundred are kept', await isShown('#unkept'), false);
  await write(OWN);
  is('one more is said not to be',
    await page.until('document.getElementById("unkept").checkVisibility()', 5), true);
  is('the last hundred are', (await kept()).split('===').length, 100);
  is('with the new one', (await kept()).startsWith(`${OWN}===; old 100===`), true);
  await chooseOwn('your own: old 1');
  is('the oldest lasts as long as the page', await valueOf('#text'), '; old 1');
  await page.evaluate('localStorage.clear()');
}

// Where the browser keeps nothing it is said, and they last as long as the page.
export async function testUnkeptDrafts() {
  await open();
  await page.evaluate('Storage.prototype.setItem = () => { throw new Error("no room"); }');
  await write(OWN);
  is('it is said that nothing is kept',
    await page.until('document.getElementById("unkept").checkVisibility()', 5), true);
  await page.choose('#example', 'sum');
  await chooseOwn('your own: mine');
  is('the own text is there', await valueOf('#text'), OWN);
}

export async function testUndoOfText() {
  await open('#example=prefix&view=workers&workers=3&acts=0.1.2*20');
  const before = await valueOf('#text');
  await write(OWN);
  await has('the schedule goes with the text', '#moment-said', '0 of 0');
  await page.chord('z');
  is('undo by key', await valueOf('#text'), before);
  await has('with the schedule', '#moment-said', '60 of 60');
  await page.chord('y');
  is('redo by key', await valueOf('#text'), OWN);
  await page.click('#undo-text');
  is('undo by click', await valueOf('#text'), before);
  await page.click('#redo-text');
  await page.choose('#example', 'sum');
  await page.click('#undo-text');
  is('a choice is undone', await valueOf('#text'), OWN);
}

// What one goes back to is kept as the same program, also where the page is loaded anew.
export async function testReloadAfterUndo() {
  await open();
  await page.evaluate('localStorage.clear()');
  await open();
  await write(OWN);
  await page.until('false', 1.1);
  await write(`${OWN}; more\n`);
  await page.chord('z');
  is('undone', await valueOf('#text'), OWN);
  await page.until('location.hash.includes("text=")');
  await page.until('false', 0.6);
  is('what is seen is kept', await kept(), OWN);
  await reload();
  is('loaded anew', await valueOf('#text'), OWN);
  is('it is one’s own', await chosen(), 'your own: mine');
  await writeAtStart('; on\n');
  is('that goes on', await kept(), `; on\n${OWN}`);
  await page.chord('z');
  await reload();
  is('also at once', await chosen(), 'your own: mine');
  is('with its text', await valueOf('#text'), OWN);
  await writeAtStart('; last\n');
  is('and is still one program', (await kept()).split('===').length, 1);
  await page.evaluate('localStorage.clear()');
}

// What was shown is shown again, though its address had no time to follow.
export async function testReloadAtOnce() {
  await open('#example=prefix&view=workers&workers=3');
  await page.evaluate('localStorage.clear()');
  await clicks('#all-10', 2);
  await reload();
  await has('the moment', '#moment-said', '60 of 60');
  await page.click('#moment-back');
  await reload();
  await has('the one before', '#moment-said', '59 of 60');
  await page.until('location.hash.includes("at=59")', 5);
  is('its address follows', await page.evaluate('location.hash.includes("at=59")'), true);
  const before = await valueOf('#text');
  await write(OWN);
  await reload();
  is('what was written', await valueOf('#text'), OWN);
  is('it is one’s own', await chosen(), 'your own: mine');
  await page.choose('#example', 'prefix');
  await reload();
  is('what was chosen', await valueOf('#text'), before);
  await writeAtStart('; on\n');
  await page.chord('z');
  await reload();
  is('a program of the gallery that was undone to', await valueOf('#text'), before);
  is('is that of the gallery', await valueOf('#example'), 'prefix');
  await page.evaluate(`localStorage.setItem(${KEY},
    JSON.stringify([3, 2, 1].map((number) => ({ number, text: '; alike' }))))`);
  await open();
  await page.choose('#example', 'own 2');
  await reload();
  is('of programs that are alike the same', await valueOf('#example'), 'own 2');
  await page.evaluate('localStorage.clear()');
}

// A link shows what it says, also in a tab that showed a later version of it.
export async function testLinkOfOlderVersion() {
  await open();
  await page.evaluate('localStorage.clear()');
  await open();
  await write(OWN);
  await page.until('location.hash.includes("text=")');
  const link = await page.evaluate('location.hash');
  await writeAtStart('; on\n');
  await open(link);
  is('what the link says', await valueOf('#text'), OWN);
  await writeAtStart('; other\n');
  is('the later version stays', await kept(), `; other\n${OWN}===; on\n${OWN}`);
  await page.evaluate(`location.hash = ${JSON.stringify(link)}`);
  is('also where the page stays', await isText(OWN), true);
  await reload();
  is('and is loaded anew', await valueOf('#text'), OWN);
  await writeAtStart('; third\n');
  is('each is kept', (await kept()).split('===').length, 3);
}

// One that is too long for a link.
const LONG = `Array.from({ length: 20000 }, (_, k) => '; ' + Math.sin(k)).join('\\n') + '\\n'`;
const LENGTH = 'JSON.parse(localStorage.getItem("kaolinsilk drafts"))[0].text.length';

export async function testReloadOfLongText() {
  await open();
  await page.evaluate('localStorage.clear()');
  await open();
  await page.choose('#example', 'new');
  await page.evaluate(paste(LONG));
  await has('it has no link', '#link-said', 'too long for a link');
  await isTold();
  const line = await text('#fault');
  const length = await page.evaluate(LENGTH);
  await reload();
  await has('loaded anew', '#fault', line);
  is('it is one’s own', (await chosen()).startsWith('your own: '), true);
  await writeAtStart('; on\n');
  is('that goes on', await page.evaluate(LENGTH), length + 5);
  is('it is one program', (await kept()).split('===').length, 1);
  await page.click('h1');
  await page.choose('#example', 'sum');
  await page.until('location.hash.includes("example=sum")');
  await page.evaluate('history.back()');
  await has('back', '#example option:checked', 'your own: 0');
  await page.until('false', 0.5);
  is('it stays', await chosen(), 'your own: 0');
  is('with all of its text', await text('#fault'), line.replace('20,001', '20,002'));
  await page.evaluate('localStorage.clear()');
}

export async function testUndoOfSchedule() {
  await open('#example=prefix&view=workers&workers=3');
  await clicks('#all-10', 2);
  await page.choose('#worker-count', '5');
  is('other workers', await count('#cards > li'), 5);
  await has('begin anew', '#moment-said', '0 of 0');
  await page.click('#undo-acts');
  is('undone', await count('#cards > li'), 3);
  await has('with its acts', '#moment-said', '60 of 60');
  await page.click('#reset');
  await has('again', '#moment-said', '0 of 0');
  await page.chord('z');
  await has('undo by key', '#moment-said', '60 of 60');
  await page.chord('z');
  await has('once more', '#moment-said', '30 of 30');
  await page.chord('z', 8);
  await has('redo by key', '#moment-said', '60 of 60');
  await page.click('#moment-start');
  await page.click('#all-1');
  await page.click('#undo-acts');
  await has('what came after is there again', '#moment-said', '0 of 60');
}

// What was written just before a choice is what one goes back to; what is made of an older version
// takes nothing from the later one. With clicks, as below.
export async function testHistoryOfVersions() {
  await open();
  await page.evaluate('localStorage.clear()');
  await open();
  await write(OWN);
  await page.choose('#example', 'sum');
  await page.evaluate('history.back()');
  is('back to what was written', await isText(OWN), true);
  await page.until('location.hash.includes("text=")', 5);
  is('its address follows', await page.evaluate('location.hash.includes("text=")'), true);
  await reload();
  is('loaded anew', await valueOf('#text'), OWN);
  await page.click('h1');
  await page.choose('#example', 'sum');
  await page.click('h1');
  await chooseOwn('your own: mine');
  await writeAtStart('; later\n');
  await page.evaluate('history.go(-2)');
  is('back to the older version', await isText(OWN), true);
  await page.chord('z');
  await page.until('false', 0.5);
  is('where nothing is to be undone the later one stays', await kept(), `; later\n${OWN}`);
  await writeAtStart('; other\n');
  is('both versions stay', await kept(), `; other\n${OWN}===; later\n${OWN}`);
  await page.evaluate('localStorage.clear()');
}

// With a click on each: a browser forgets pages first on which nobody ever clicked.
export async function testHistory() {
  await open('#example=prefix&view=workers&workers=3&acts=0.1.2*20');
  await page.click('h1');
  for (const example of ['sum', 'sort']) {
    await page.choose('#example', example);
    await page.until(`location.hash.includes("example=${example}")`);
    await page.click('h1');
  }
  const isShown = (example) =>
    page.until(`document.getElementById("example").value === "${example}"`, 5);
  await page.evaluate('history.back()');
  is('back', await isShown('sum'), true);
  await page.evaluate('history.back()');
  is('back once more', await isShown('prefix'), true);
  await has('with its schedule', '#moment-said', '60 of 60');
  await page.evaluate('history.forward()');
  is('forward', await isShown('sum'), true);
  await page.refresh();
  await page.until('document.documentElement?.hasAttribute("data-ready")');
  is('loaded anew', await isShown('sum'), true);
  await page.evaluate('history.back()');
  is('back from there', await isShown('prefix'), true);
  await has('by its address', '#moment-said', '60 of 60');
}
