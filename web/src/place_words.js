// The two words of a chosen place over time.
import { byId, fit, makeSvg, setAttribute, setText } from './dom.js';
import { numberWithin } from './numbers.js';
import { counterPlace, nameOfPlace, registerPlace } from './places.js';
import { listenToMoments, makeMoment, showMoment } from './steps_list.js';
import { counted, english, phrase } from './words.js';

const WIDTH = 800;
const LANE = 30;
const LEFT = 84;
const ROWS = 12;
const MOST_STRETCHES = 300;
const LANES = [english('first word'), english('second word')];
const SWAPS = [
  english('{0} swaps the first word: {1} becomes {2}'),
  english('{0} swaps the second word: {1} becomes {2}'),
];

// How long each word held what: from one change to the next.
function stretchesOf(stored, changes, part, end) {
  const own = changes.filter((change) => change.part === part);
  const [first] = own;
  const start = first
    ? { stamp: first.beforeStamp, payload: first.beforePayload, from: 0 }
    : { stamp: stored[part].stamp, payload: stored[part].payload, from: 0 };
  const values = [start, ...own.map((change) => (
    { stamp: change.afterStamp, payload: change.afterPayload, from: change.moment }))];
  return values.map((value, k) => ({ ...value, to: values[k + 1]?.from ?? end }))
    .slice(-MOST_STRETCHES);
}

const wordInWords = ({ payload, stamp }) => phrase('{0} of step {1}', payload, stamp);

function drawStretch(stretch, part, scale, isNewer) {
  const x = LEFT + stretch.from * scale;
  const width = Math.max((stretch.to - stretch.from) * scale, 1);
  const text = wordInWords(stretch);
  const box = { x, y: part * (LANE + 6) + 2, width, height: LANE };
  const kind = `stretch ${stretch.stamp % 2 ? 'odd' : 'even'}${isNewer ? ' newer' : ''}`;
  const group = makeSvg('g', { class: kind },
    makeSvg('title', {}, phrase('{0}, from moment {1} to {2}', text, stretch.from, stretch.to)),
    makeSvg('rect', box));
  if (width > 7 * text.length + 8) {
    group.append(makeSvg('text', { x: x + width / 2, y: box.y + LANE / 2 }, text));
  }
  return group;
}

function drawLane(stored, changes, part, end) {
  const scale = (WIDTH - LEFT - 2) / Math.max(end, 1);
  const stretches = stretchesOf(stored, changes, part, end);
  const isNewer = stored[part].newer === 1;
  const at = { x: 0, y: part * (LANE + 6) + LANE / 2 + 2, class: 'lane' };
  return [makeSvg('text', at, phrase(LANES[part])), ...stretches.map((stretch, k) =>
    drawStretch(stretch, part, scale, isNewer && k === stretches.length - 1))];
}

function changeInWords(change, names) {
  const before = wordInWords({ payload: change.beforePayload, stamp: change.beforeStamp });
  const after = wordInWords({ payload: change.afterPayload, stamp: change.afterStamp });
  return phrase(SWAPS[change.part], names[change.body], before, after);
}

function chosenPlace(job) {
  const kind = byId('place-kind').value;
  const most = kind === 'cell' ? job.cells - 1 : job.procs - 1;
  const input = byId('place-number');
  const number = numberWithin(input.value, 0, most, 0);
  input.max = most;
  if (kind === 'cell') return number;
  if (kind === 'counter') return counterPlace(job, number);
  return registerPlace(job, number, Number(byId('place-register').value));
}

function showList(changes, names) {
  const last = changes.slice(-ROWS).reverse();
  fit(byId('place-changes'), last.length, makeMoment).forEach((item, k) =>
    showMoment(item, last[k].moment, changeInWords(last[k], names), ''));
}

export class PlaceWords {
  constructor(app, onChange, moveTo) {
    this.app = app;
    for (const id of ['place-kind', 'place-number', 'place-register']) {
      byId(id).addEventListener('input', onChange);
    }
    listenToMoments(byId('place-changes'), moveTo);
  }

  choose(cell) {
    byId('place-kind').value = 'cell';
    byId('place-number').value = cell;
  }

  get place() {
    return chosenPlace(this.app.job);
  }

  // `stored` are its two words as they are now.
  show(stored, names) {
    const { job, schedule } = this.app;
    const { place } = this;
    const changes = schedule.film.changesOf(place, schedule.at);
    byId('place-register-label').hidden = byId('place-kind').value !== 'register';
    setAttribute(byId('place-drawing'), 'viewBox', `0 0 ${WIDTH} ${2 * LANE + 12}`);
    byId('place-drawing').replaceChildren(...drawLane(stored, changes, 0, schedule.at),
      ...drawLane(stored, changes, 1, schedule.at));
    setText(byId('place-said'), counted(changes.length,
      '{1}: the first word says {2}, the second {3}; {0} change so far.',
      '{1}: the first word says {2}, the second {3}; {0} changes so far.',
      nameOfPlace(job, place), ...stored.map(wordInWords)));
    showList(changes, names);
  }
}
