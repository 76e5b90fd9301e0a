// The schedule as a plan file to take home. Of a long plan the page shows the first rows alone.
import { byId, onClick, setHidden, setText } from './dom.js';
import { grouped } from './numbers.js';
import { hasTwins, rowsOfPlan, textOfPlan } from './plan.js';
import { save } from './styled_svg.js';
import { phrase } from './words.js';

const ROWS = 200;

// What a file with the program is called.
const fileOf = ({ job, isProgram }) =>
  (job?.source || isProgram ? 'program.pardo' : 'program.pram');

const actsOf = ({ schedule }) => schedule.acts.slice(0, schedule.at);

export function openPlan(app) {
  onClick('save-plan', () => save('plan.csv', 'text/plain', textOfPlan(rowsOfPlan(actsOf(app)))));
  onClick('save-text', () => save(fileOf(app), 'text/plain', app.text));
}

function commandOf(app, rows) {
  const command =
    `pramx replay ${fileOf(app)} --workers ${app.schedule.workers} --plan plan.csv`;
  const said = phrase(
    'The same steps up to this moment, and then each worker in turn to the end: {0}.', command);
  return rows.length > ROWS
    ? `${said} ${phrase('Its first {0} rows are shown.', grouped(ROWS))}` : said;
}

export function showPlan(app) {
  const acts = actsOf(app);
  const isRefused = hasTwins(acts);
  const rows = isRefused ? [] : rowsOfPlan(acts, ROWS + 1);
  for (const id of ['plan', 'plan-links']) setHidden(byId(id), isRefused);
  setText(byId('plan'), textOfPlan(rows.slice(0, ROWS)));
  setText(byId('plan-said'), isRefused
    ? phrase('A plan has no twins: go back to a moment before the first one.')
    : commandOf(app, rows));
}
