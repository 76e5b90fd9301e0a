// The processors of a program as a table: whether each is active in the line that is next, and its
// private variables.
import { STATE } from './activity.js';
import { byId, fit, make, setAttribute, setText } from './dom.js';
import { followText } from './following.js';
import { grouped } from './numbers.js';
import { PROCESSORS_IN_SIGHT } from './processors.js';
import { openWindow } from './window.js';
import { english, phrase } from './words.js';

const IN_SIGHT = 32;

const makeRow = () => make('tr', {}, make('th', { scope: 'row' }));

// A processor that is gone left in the line that it executed last.
function stateInWords(state, last, program) {
  if (state !== STATE.GONE || !last) return phrase(state);
  return phrase('gone: line {0} has no such place', grouped(program[last.index]?.line ?? 0));
}

export function openProgramTable(onMove) {
  const sight = openWindow(PROCESSORS_IN_SIGHT, IN_SIGHT, onMove);
  const body = make('tbody');
  const head = make('tr');
  const table = make('table', { class: 'processors' },
    followText(make('caption', { class: 'unseen' }),
      english('Processors in the line that is next')),
    make('thead', {}, head), body);
  byId('program-processors').append(sight.bar, make('div', { class: 'scroll' }, table));

  function showHead(names) {
    const titles = [phrase('processor'), phrase('in this line'), ...names];
    fit(head, titles.length, () => make('th', { scope: 'col' }))
      .forEach((cell, k) => setText(cell, titles[k]));
  }

  return {
    // `lasts` gives what each processor executed last, where that is told.
    show(job, places, states, lasts) {
      const { privates } = job.source;
      showHead(privates.map(({ name }) => name));
      const range = sight.range(job.procs);
      fit(body, range.length, makeRow).forEach((row, k) => {
        const processor = range.first + k;
        const state = states[processor];
        const last = state === STATE.GONE ? lasts()?.[processor] : undefined;
        const texts = [`P${processor}`, stateInWords(state, last, job.program),
          ...privates.map(({ base }) => places[base + processor])];
        while (row.children.length < texts.length) row.append(make('td'));
        while (row.children.length > texts.length) row.lastChild.remove();
        [...row.children].forEach((cell, column) => setText(cell, String(texts[column])));
        setAttribute(row, 'class', state === STATE.ACTIVE ? 'is-active' : 'stopped');
      });
    },
  };
}
