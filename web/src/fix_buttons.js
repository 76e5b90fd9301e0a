// Buttons that mend the fault of a program, beside its words.
import { byId, fit, make, setHidden, setText } from './dom.js';
import { fixesOf } from './fixes.js';
import { shortened } from './numbers.js';
import { phrase } from './words.js';

// Shows them for what was found of a text; `rewrite` hears the text that is chosen.
export function showFixes({ job, judged }, { core, text }, rewrite) {
  const fixes = job || !judged.isProgram ? [] : fixesOf(core, text, judged);
  const part = byId('fixes');
  setHidden(part, fixes.length === 0);
  fit(part, fixes.length, () => make('button', { type: 'button' })).forEach((button, k) => {
    setText(button, phrase('Write “{0}”', shortened(fixes[k].said, 40)));
    button.onclick = () => rewrite(fixes[k].text);
  });
}
