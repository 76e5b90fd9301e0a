// tree_picture.js PAGE OUT.svg: the progress tree half-way, as the page draws it, as a picture by
// itself, with the page's rules of style for it.
import { writeFileSync } from 'node:fs';
import { resolve } from 'node:path';
import { withPage } from './browser.js';

// Four workers, of which one is lost, in the middle of the second pass.
const MOMENT = '#example=maximum&view=workers&workers=4&acts=0.1.2.3*500~l1~0.2.3*260';

const TAKE = `(() => {
  const tree = document.getElementById('tree').cloneNode(true);
  const styles = (selector) => selector === ':root' || selector === '#tree text' ||
    (/^\\.[\\w-]+( |\\.|$)/.test(selector) && tree.querySelector(selector) !== null);
  const isDark = (rule) => rule.media?.mediaText.includes('dark');
  const kept = [...document.styleSheets[0].cssRules]
    .filter((rule) => (rule.media ? isDark(rule) : styles(rule.selectorText)));
  for (const title of tree.querySelectorAll('title')) title.remove();
  const style = document.createElementNS('http://www.w3.org/2000/svg', 'style');
  style.textContent = kept.map((rule) => rule.cssText).join('\\n');
  tree.prepend(style);
  tree.setAttribute('width', 800);
  tree.setAttribute('height', 300);
  return new XMLSerializer().serializeToString(tree);
})()`;

const [page, out] = process.argv.slice(2);
await withPage(async (browser) => {
  await browser.resize(1280, 900);
  await browser.setScheme('light');
  if (!await browser.open(`file://${resolve(page)}${MOMENT}`)) throw new Error('no page');
  writeFileSync(out, `${(await browser.evaluate(TAKE)).replaceAll('><', '>\n<')}\n`);
});
