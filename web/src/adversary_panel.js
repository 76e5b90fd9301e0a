// The panel of the adversary: what it is asked for, how far it is, and what it found.
import { byId, onClick, setHidden, setText } from './dom.js';
import { namesOfBodies } from './meaning.js';
import { grouped, great, numberWithin } from './numbers.js';
import { phrase } from './words.js';

const GREATEST_SEED = 2 ** 32 - 1;

// Of which all schedules can be met.
const SMALL = `pardo 1
rule crew
procs i < 2
shared A[2]
code
A[i] := i
`;

const nothing = () => '';

const sizesOf = ({ cells, procs, steps, places }) => ({ cells, procs, steps, places });

const answerInWords = ({ isFull, isSame }) => {
  if (isFull) return phrase('The schedule is full before the job ends.');
  if (isSame === undefined) return '';
  return isSame ? phrase('The answer is the plain machine’s.')
    : phrase('ANOTHER ANSWER THAN the plain machine’s.');
};

const randomInWords = (seed, meanness, found) => [
  phrase('Seed {0}, {1}.', seed, meanness()),
  phrase('Atomic steps: {0}. Losses: {1}. Returns: {2}. Sleeps: {3}.',
    ...[found.steps, found.losses, found.returns, found.sleeps].map(grouped)),
  answerInWords(found),
].join(' ');

const lossInWords = (names, { lost, moment, most, least, tried, moments }) =>
  phrase('{0}, lost at moment {1}: those who are left make {2} atomic steps from here on, and ' +
    '{3} if the moment is the kindest. Moments tried: {4} of {5}.',
  names[lost], ...[moment, most, least, tried, moments].map(grouped));

const worstInWords = (names, { tries, losses, ...found }) => [
  phrase('Schedules tried: {0}.', grouped(tries)),
  ...losses.map((loss) => lossInWords(names, loss)),
  answerInWords(found),
].join(' ');

const sameInWords = (others) => (others === 0
  ? phrase('Each has the plain machine’s answer: the core replayed a schedule to it.')
  : phrase('NOT EACH HAS the plain machine’s answer.'));

// Of a program that is too large what was met of it.
const partInWords = ({ states, ends, others }) => [
  phrase('Not all schedules were met: it ended after {0} states, which is what a page holds. Try ' +
    'fewer workers, or a smaller program.', grouped(states)),
  phrase('Different ends met: {0}.', grouped(ends)),
  ends === 0 ? '' : sameInWords(others),
].join(' ').trim();

const allInWords = ({ states, schedules, steps, ends, others, least, most }) => [
  phrase('All schedules: {0}. States, each met once: {1}. Different atomic steps, each told by ' +
    'the core: {2}.', great(schedules), grouped(states), grouped(steps)),
  phrase('Different ends: {0}.', grouped(ends)), sameInWords(others),
  phrase('The shortest schedule has {0} atomic steps, the slowest {1}.', grouped(least),
    grouped(most)),
].join(' ');

export class AdversaryPanel {
  constructor(app, view) {
    Object.assign(this, { app, view, text: undefined, said: nothing, saidFar: nothing });
    onClick('adversary-random', () => this.random());
    onClick('adversary-worst', () => this.worst());
    onClick('adversary-all', () => this.all());
    onClick('adversary-slowest', () => this.showSlowest());
    onClick('adversary-small', () =>
      app.choose(SMALL, { name: () => phrase('a small program') }));
    byId('adversary-seed').addEventListener('keydown', ({ key }) => {
      if (key === 'Enter') this.random();
    });
  }

  // What is searched or was found of another text is forgotten.
  show() {
    const { text } = this.app.job;
    if (text !== this.text) {
      this.far?.forget();
      this.sayFar(nothing);
      Object.assign(this, { text, said: nothing, slowest: undefined });
    }
    setText(byId('adversary-said'), this.said());
    setHidden(byId('adversary-slowest'), this.slowest === undefined);
  }

  // `said` tells it in the language of then.
  say(said) {
    this.said = said;
    this.show();
  }

  // How far a search is, which no ear is to hear each time.
  sayFar(said) {
    this.saidFar = said;
    setText(byId('adversary-far'), said());
  }

  stop() {
    if (!this.far || this.far.isFree) return;
    this.far.forget();
    const { saidFar } = this;
    this.sayFar(nothing);
    this.say(() => `${phrase('A click ended it.')} ${saidFar()}`.trim());
  }

  // Has the other thread search; `hear` is told what was found, and `farInWords` how far it is.
  search(name, wanted, farInWords, hear) {
    const { app, view } = this;
    view.pause();
    const { job, answer, schedule: { workers } } = app;
    const asked = { text: job.text, job: sizesOf(job), answer, workers, ...wanted };
    this.far ??= app.far.another();
    this.slowest = undefined;
    this.sayFar(nothing);
    this.say(() => phrase('On the way. Any other click ends it here.'));
    const ask = (call, given) => this.far.ask(call, given, ({ isDone, ...told }) => {
      this.sayFar(isDone ? nothing : () => farInWords(told));
      if (isDone) hear(told);
      else ask('goOnSearching', []);
    });
    ask('beginSearch', [name, asked]);
  }

  // Has these acts from act number `from` on, of which the core told this, and shows their end.
  adopt(workers, from, { acts, told }) {
    this.app.schedule.change(workers, from, acts, { told });
    this.view.changed();
  }

  random() {
    const { workers } = this.app.schedule;
    const seed = numberWithin(byId('adversary-seed').value, 0, GREATEST_SEED, 1);
    const choice = byId('adversary-meanness').selectedOptions[0];
    byId('adversary-seed').value = seed;
    this.search('random', { seed, meanness: choice.value },
      ({ acts }) => phrase('Acts so far: {0}.', grouped(acts)),
      (found) => {
        this.adopt(workers, 0, found);
        this.say(() => randomInWords(grouped(seed), () => choice.textContent, found));
      });
  }

  // From the moment that is shown.
  worst() {
    const { app: { schedule }, view } = this;
    view.pause();
    const { workers, at } = schedule;
    const bodies = schedule.bodies();
    const going = view.board.goingInTurn();
    if (going.length < 2) {
      this.say(() => phrase('Fewer than two workers are going: nobody is to be lost.'));
      return;
    }
    this.search('worst', { acts: schedule.acts.slice(0, at), going },
      ({ tries }) => phrase('Schedules tried: {0}.', grouped(tries)),
      (found) => {
        if (!found.isFull) this.adopt(workers, at, found);
        this.say(() => worstInWords(namesOfBodies(bodies, workers), found));
      });
  }

  // From the first moment, of so many workers as the panel says.
  all() {
    const workers = Number(byId('adversary-workers').value);
    const isLosing = byId('adversary-losing').checked;
    this.search('all', { workers, isLosing },
      ({ states }) => phrase('States met so far: {0}.', grouped(states)),
      (found) => {
        this.slowest = found.acts && { workers, acts: found.acts };
        this.say(() => (found.isWhole ? allInWords(found) : partInWords(found)));
      });
  }

  showSlowest() {
    this.view.pause();
    this.adopt(this.slowest.workers, 0, this.slowest);
  }
}
