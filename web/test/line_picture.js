// line_picture.js PAGE OUT.svg: a line of a program as the page shows it, as the picture that the
// page saves.
import { writeFileSync } from 'node:fs';
import { resolve } from 'node:path';
import { withPage } from './browser.js';

// Prefix sums in the first round: the third line.
const MOMENT = '#example=prefix.pardo';
const NUMBER = 2;

const TAKE = `(async () => {
  const taken = new Promise((done) => {
    const address = URL.createObjectURL.bind(URL);
    URL.createObjectURL = (file) => {
      done(file.text());
      return address(file);
    };
  });
  document.getElementById('save-memory').click();
  return taken;
})()`;

const [page, out] = process.argv.slice(2);
await withPage(async (browser) => {
  await browser.resize(1280, 900);
  await browser.setScheme('light');
  if (!await browser.open(`file://${resolve(page)}${MOMENT}`)) throw new Error('no page');
  await browser.until('document.getElementById("step-name").textContent === "lines done"');
  for (let k = 0; k < NUMBER; k += 1) await browser.click('#step-on');
  writeFileSync(out, `${(await browser.evaluate(TAKE)).replaceAll('><', '>\n<')}\n`);
});
