// How often each line is executed, and by how many processors: behind its number, and as a table.
import { clicks, count, folders, has, is, isShown, open, page, reload, text } from './drive.js';

const heatOf = (line, part = '') => `#gutter [data-line="${line}"] .heat${part}`;
const titleOf = (line) => page.evaluate(`document.querySelector('${heatOf(line)}').title`);

// In sum.pardo line 13 is executed in each of three rounds, by 4, 2 and 1 processors.
export async function testHeat() {
  await open('#example=sum.pardo');
  await page.evaluate('localStorage.clear()');
  await open('#example=sum.pardo');
  await has('at the start nothing is done', heatOf(13, ' :last-child'), '0');
  is('how often', await text(heatOf(13, ' :first-child')), '0×');
  await clicks('#step-on', 3);
  is('once, after three lines', await text(heatOf(13, ' :first-child')), '1×');
  is('by four', await text(heatOf(13, ' :last-child')), '4');
  is('in words', await titleOf(13), 'Executed so far: 1 of 3 times. Active processors, counted ' +
    'each time: 4 of 7, at most 4 at once.');
  is('no line of code', await titleOf(9), '');
  await page.click('#step-end');
  is('at the end', await titleOf(12), 'Executed so far: 3 of 3 times. Active processors, counted ' +
    'each time: 12 of 12, at most 4 at once.');
  await page.click('#step-back');
  is('a line back', await text(heatOf(15, ' :first-child')), '2×');
}

export async function testHeatAsTable() {
  await page.click('#by-lines summary');
  await has('a table', '#by-lines-rows', '13: A[i] := A[2 * i] + A[2 * i + 1]');
  is('its row', await page.evaluate(`[...document.querySelectorAll(
    '#by-lines-rows tr:nth-child(3) td')].map((one) => one.textContent).join()`), '3,3,7,7,4');
  await page.choose('#example', 'maximum');
  is('none of a text of the machine', await isShown('#by-lines'), false);
  is('nor a heat', await isShown('#heat-choice'), false);
}

export async function testHeatIsSwitched() {
  await page.choose('#example', 'sum.pardo');
  await has('it is there', heatOf(13, ' :last-child'), '0');
  await page.click('#heat');
  is('switched off', await isShown(heatOf(13)), false);
  await reload();
  is('which is kept', await isShown(heatOf(13)), false);
  await page.click('#heat');
  await has('and on', heatOf(13, ' :last-child'), '0');
  await page.click('#tab-workers');
  is('by workers there is none', await isShown(heatOf(13)), false);
  await page.open(`${folders.address}?embed=both#example=sum.pardo`);
  is('none in a frame', await count('.gutter[data-heat]'), 0);
  await page.open(`${folders.address}?embed=both&heat=1#example=sum.pardo`);
  await has('unless one asks for it', heatOf(13, ' :last-child'), '0');
}

// What is at work, or active, is said once.
export async function testSaidOnce() {
  await open('#example=prefix.pardo&step=11');
  await has('who is active', '#plain-said', '7 of 8, are active');
  is('the steps', await text('#plot-said'), 'Steps 12 to 22.');
  is('it is said once', await page.evaluate(`document.body.innerText.match(
    /[0-9] (?:at work|are active|of 8,)/g).length`), 1);
}
