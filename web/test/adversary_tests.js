// The adversary of the workers' view.
import { writeAddress } from '../src/address.js';
import { Schedule } from '../src/schedule.js';
import { count, has, is, isShown, open, page, text, valueOf } from './drive.js';

const addressOf = (content) =>
  writeAddress({ text: content, view: 'workers', step: 0, schedule: new Schedule(2) }, []);

const opened = async (hash) => {
  await open(hash);
  await page.click('#adversary summary');
};

async function seedIs(seed) {
  await page.click('#adversary-seed');
  await page.selectAll();
  await page.insert(seed);
}

const acts = () => page.evaluate(`new URLSearchParams(location.hash.slice(1)).get('acts')`);

export async function testRandomSchedule() {
  await opened('#example=maximum&view=workers&workers=3');
  await seedIs('7');
  await page.click('#adversary-random');
  await has('its seed', '#adversary-said', 'Seed 7, mean: some are lost, too. Atomic steps: ');
  await has('its answer', '#adversary-said', 'The answer is the plain machine’s.');
  await has('it is the schedule', '#outcome', 'Done: the same answer as the plain machine’s.');
  const moment = await text('#moment-said');
  await page.until('location.hash.includes("acts=")');
  const first = await acts();
  await page.click('#undo-acts');
  is('it is undone at once', await text('#moment-said'), '0 of 0');
  await page.click('#adversary-seed');
  await page.press('Enter', 'Enter', '\r');
  await page.until('document.getElementById("moment-said").textContent !== "0 of 0"', 5);
  is('the same seed is the same schedule', await text('#moment-said'), moment);
  await page.until('location.hash.includes("acts=")');
  is('act by act', await acts(), first);
  await seedIs('8');
  await page.choose('#adversary-meanness', 'cruel');
  await page.click('#adversary-random');
  await has('another seed', '#adversary-said', 'Seed 8, cruel: they are lost again and again.');
  is('is another schedule', (await text('#moment-said')) === moment, false);
  await page.evaluate('document.getElementById("adversary").scrollIntoView()');
  await page.sightPicture('adversary');
  await seedIs('-3');
  await page.click('#adversary-random');
  await has('no number is seed 1', '#adversary-said', 'Seed 1, cruel');
  is('and is said', await valueOf('#adversary-seed'), '1');
  await page.click('#plan-part summary');
  await has('a plan of it', '#plan', 'worker,act,ticks');
  await page.choose('#example', 'sum');
  is('another program forgets it', await text('#adversary-said'), '');
}

export async function testWorstMoments() {
  await opened('#example=levels&view=workers&workers=3&acts=0.1.2*5');
  await page.click('#adversary-worst');
  await has('it is on its way', '#adversary-said', 'On the way. Any other click ends it here.');
  await page.click('#all-1');
  await has('a click ends it', '#adversary-said', 'A click ended it.');
  is('and does what it does', await text('#moment-said'), '18 of 18');
  await opened(`#${await addressOf('pram 1\ncells 2\nprocs 2\nsteps 1\ncode\npid r0\n')}`);
  await page.click('#adversary-worst');
  await has('how many were tried', '#adversary-said', 'Schedules tried: ');
  await has('who is lost when', '#adversary-said', ', lost at moment ');
  await has('one of two is lost', '#cards', ', lost');
  await has('the answer', '#outcome', 'Done: the same answer as the plain machine’s.');
  await page.click('#adversary-worst');
  await has('then nobody goes', '#adversary-said', 'Fewer than two workers are going');
  await page.click('#undo-acts');
  is('it is undone at once', await text('#moment-said'), '0 of 0');
}

export async function testAllSchedules() {
  await opened('#example=sum&view=workers&workers=4');
  await page.click('#adversary-small');
  await has('a small program', '#example option:checked', 'a small program');
  await has('is there', '#answer', '2 cells');
  is('by workers', await isShown('#adversary-all'), true);
  await page.click('#adversary-all');
  await page.until(`document.getElementById('adversary-said').textContent.startsWith('All')`, 60);
  await has('how many there are', '#adversary-said', 'All schedules: 8.07 × 10¹³⁰. States, each ' +
    'met once: 218,864. ');
  await has('their ends', '#adversary-said', 'Different ends: 3. Each has the plain machine’s ' +
    'answer: the core replayed a schedule to it. The shortest schedule has 293 atomic steps, the ' +
    'slowest 470.');
  await page.click('#adversary-slowest');
  is('the slowest', await text('#moment-said'), '470 of 470');
  is('of two workers', await count('#cards > li'), 2);
  await has('its answer', '#outcome', 'Done: the same answer as the plain machine’s.');
  await page.evaluate('document.getElementById("adversary").scrollIntoView()');
  await page.sightPicture('all-schedules');
  await page.click('#undo-acts');
  is('it is undone at once', await count('#cards > li'), 4);
  await page.choose('#adversary-workers', '3');
  await page.click('#adversary-losing');
  await page.click('#adversary-all');
  await has('too many', '#adversary-far', 'States met so far: ');
  await page.click('#all-1');
  await has('are ended by a click', '#adversary-said', 'A click ended it. States met so far: ');
  is('nothing is shown of them', await isShown('#adversary-slowest'), false);
  await page.choose('#language', 'de');
  await has('in another language', '#adversary-said', 'Ein Klick hat es beendet.');
  await page.choose('#language', 'en');
}

// On a phone, and by eyes and ears: the panel fits, and its controls have names.
export async function testAdversaryFits() {
  for (const tag of ['en', 'de', 'fr', 'es', 'zh-Hans']) {
    await page.resize(360, 740);
    await opened('#example=sum&view=workers&workers=2');
    await page.choose('#language', tag);
    const wide = await page.evaluate('document.documentElement.scrollWidth');
    is(`the panel fits a phone: ${tag}`, wide <= 360 || wide, true);
    await page.evaluate('document.getElementById("adversary").scrollIntoView()');
    await page.sightPicture(`adversary-${tag}`);
  }
  await page.choose('#language', 'en');
  await page.resize(1280, 900);
  const named = await page.evaluate(`[...document.querySelectorAll(
    '#adversary button, #adversary input, #adversary select')].every((one) =>
    (one.labels?.[0] ?? one).textContent.trim() !== '')`);
  is('each control is named', named, true);
  is('what is found is said', await page.evaluate(
    'document.getElementById("adversary-said").getAttribute("role")'), 'status');
}
