// The list of atomic steps, the newest first, each with what it meant; one can go to each of them.
// A window of them is shown, which begins at the moment that is shown.
import { byId, fit, make, setAttribute, setHidden, setText } from './dom.js';
import { actInWords } from './meaning.js';
import { grouped } from './numbers.js';

const MOST = 50;

// An item of a list of moments: a button that goes to its moment.
export const makeMoment = () => make('li', {},
  make('button', { type: 'button', class: 'to-moment' },
    make('span', { class: 'moment' }), make('span', { class: 'meaning' })));

export function showMoment(item, moment, words, kind) {
  const button = item.firstElementChild;
  setAttribute(button, 'data-moment', moment);
  setText(button.firstElementChild, grouped(moment));
  setText(button.lastElementChild, words);
  setAttribute(item, 'class', kind);
}

// Clicks on the items of a list of moments.
export function listenToMoments(list, moveTo) {
  list.addEventListener('click', (event) => {
    const button = event.target.closest('[data-moment]');
    if (button) moveTo(Number(button.dataset.moment));
  });
}

export class StepsList {
  constructor(onMove, moveTo) {
    this.onMove = onMove;
    this.skipped = 0;
    byId('earlier-steps').addEventListener('click', () => this.skip(MOST));
    byId('later-steps').addEventListener('click', () => this.skip(-MOST));
    listenToMoments(byId('steps'), (moment) => moveTo(moment));
  }

  skip(count) {
    this.skipped = Math.max(0, this.skipped + count);
    this.onMove();
  }

  show(job, schedule, names) {
    if (this.moment !== schedule.at) this.skipped = 0;
    this.moment = schedule.at;
    const newest = schedule.at - this.skipped;
    const length = Math.max(0, Math.min(MOST, newest));
    fit(byId('steps'), length, makeMoment).forEach((item, k) => {
      const act = newest - 1 - k;
      const row = schedule.film.effectOf(act);
      const words = actInWords(job, names, schedule.acts[act], row);
      showMoment(item, act + 1, words, row?.isChange ? 'changes' : '');
    });
    byId('no-steps').hidden = schedule.at > 0;
    setHidden(byId('earlier-steps'), newest <= MOST);
    setHidden(byId('later-steps'), this.skipped === 0);
  }
}
