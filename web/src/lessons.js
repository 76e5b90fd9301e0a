// A tour, exercises and puzzles: a menu, and a panel over the page.
import { readAddress } from './address.js';
import { byId, make, onClick, setDisabled, setHidden, setText } from './dom.js';
import { learnWanted, showInputs } from './exercise_inputs.js';
import { isOf, isOfPage, readExercise, startOf, taskInWords } from './exercises.js';
import { judgeExercise } from './judge.js';
import { PUZZLES, judgePuzzle } from './puzzles.js';
import { keepSolved, listenToSolved, renameSolved, solved } from './solved.js';
import { save } from './styled_svg.js';
import { TOUR } from './tour.js';
import { english, phrase } from './words.js';

const PAUSE = 50;

// How the panel of each kind is headed.
const HEADS = {
  tour: english('Tour {0} of {1}: {2}'),
  exercise: english('Exercise {0} of {1}: {2}'),
  puzzle: english('Find a schedule {0} of {1}: {2}'),
};

// Whether it is an exercise of one's own.
const isOwn = (lesson) => lesson.inputs !== undefined && !isOfPage(lesson);

// The title of a lesson in the language that is spoken; that of one’s own exercise as it stands.
const titleIn = (lesson) => (isOwn(lesson) ? lesson.title : phrase(lesson.title));

const group = (label, options) => make('optgroup', { label }, ...options);

// A lesson of a list by its name, or else by its number.
const nameIn = (list, stop) => list[stop].name ?? `${stop + 1}`;

// By which name it is kept that a lesson was solved.
const keyOf = (kind, list, stop) => `${kind} ${nameIn(list, stop)}`;

function optionsOf(kind, list) {
  const right = solved();
  return list.map((lesson, stop) => {
    const mark = Object.hasOwn(right, keyOf(kind, list, stop)) ? '✓ ' : '';
    const number = isOwn(lesson) ? phrase('your own') : stop + 1;
    return make('option', { value: `${kind} ${stop + 1}` },
      `${mark}${number}: ${titleIn(lesson)}`);
  });
}

// What an exercise is called.
const nameOfExercise = (exercise) => (isOwn(exercise)
  ? phrase('Exercise: {0}', exercise.title) : phrase('Exercise {0}', exercise.number));

const areHandedIn = () => Object.keys(solved()).some((name) => name.startsWith('exercise '));

class Lessons {
  constructor(app, exercises) {
    Object.assign(this, { app, kind: '', stop: 0, far: app.far.another() });
    this.lists = { tour: TOUR, exercise: exercises, puzzle: PUZZLES };
    // They were kept by their numbers once.
    renameSolved(new Map(exercises.map(({ name, number }) =>
      [`exercise ${number}`, `exercise ${name}`])));
    const menu = byId('lesson');
    this.first = menu.firstElementChild;
    this.fillMenu();
    menu.addEventListener('change', () => this.choose(menu.value));
    onClick('lesson-back', () => this.moveBy(-1));
    onClick('lesson-on', () => this.moveBy(1));
    onClick('lesson-anew', () => this.begin(true));
    onClick('judge', () => this.judge());
    onClick('lesson-try', () =>
      app.choose(this.given, {
        name: this.nameOf(english('{0}, this input')), lesson: this.lesson,
      }));
    onClick('lesson-close', () => this.close());
    onClick('hand-in', () => this.handIn());
    listenToSolved(() => this.fillMenu());
  }

  fillMenu() {
    const menu = byId('lesson');
    const { value } = menu;
    menu.replaceChildren(this.first,
      make('option', { value: 'tour 1' }, phrase('A tour: losing a worker')),
      group(english('Exercises'), optionsOf('exercise', this.lists.exercise)),
      group(english('Find a schedule'), optionsOf('puzzle', this.lists.puzzle)));
    menu.value = value;
  }

  // In another language. What was said of an attempt is said by judging it again.
  redraw() {
    const isJudged = !byId('lesson-said').hidden;
    this.fillMenu();
    if (byId('lesson-panel').hidden) return;
    this.showPanel();
    if (isJudged) this.judge();
  }

  get list() {
    return this.lists[this.kind];
  }

  // The exercises that were solved, one after the other, as one file: those of the page, and then
  // one's own.
  handIn() {
    const { lists: { exercise: list } } = this;
    const right = solved();
    const named = list.filter(isOfPage).map(({ name, number, title }) =>
      [`exercise ${name}`, `; ${number}: ${phrase(title)}\n`]);
    const heads = new Map(named);
    const others = Object.keys(right).filter((key) => key.startsWith('exercise ') &&
      !heads.has(key));
    const keys = [...heads.keys(), ...others].filter((key) => Object.hasOwn(right, key));
    save('exercises.txt', 'text/plain',
      keys.map((key) => `${heads.get(key) ?? ''}${right[key]}`).join('\n'));
  }

  // The name of the exercise that is shown now, in the language that is spoken then.
  nameOf(text) {
    const exercise = this.list[this.stop];
    return () => phrase(text, nameOfExercise(exercise));
  }

  // Which one is shown, as an address has it; none where the panel is closed. An exercise of one's
  // own is there by its text.
  get shown() {
    if (this.kind === '' || byId('lesson-panel').hidden) return undefined;
    const { kind, list, stop } = this;
    const lesson = list[stop];
    return { kind, name: nameIn(list, stop), text: isOwn(lesson) ? lesson.text : undefined };
  }

  // An exercise of one's own is one of the list from now on: at which place. Throws a RangeError
  // that says why the text is none.
  stopOf(text) {
    const { app, lists: { exercise: list } } = this;
    const found = list.findIndex((exercise) => exercise.text === text);
    if (found >= 0) return found;
    list.push(readExercise(app.core, text));
    this.fillMenu();
    return list.length - 1;
  }

  // Begins an exercise of one's own.
  beginOwn(text) {
    this.stop = this.stopOf(text);
    this.kind = 'exercise';
    this.begin();
  }

  // What an address shows: with the lesson that it names, and with what that begins with where the
  // address has no text.
  async complete(shown) {
    if (!shown?.lesson) return shown;
    const { kind, name, text: own } = shown.lesson;
    const list = this.lists[kind];
    const stop = own === undefined
      ? list.findIndex((_, k) => [nameIn(list, k), `${k + 1}`].includes(name)) : this.stopOf(own);
    if (stop < 0) throw new RangeError(phrase('there is no such lesson'));
    const lesson = { kind, stop };
    if (shown.text !== undefined) return { ...shown, lesson };
    if (kind !== 'exercise') {
      return { ...await readAddress(list[stop].address, this.app.examples), lesson };
    }
    const text = this.begunOf(list[stop])?.text ?? startOf(list[stop]);
    return { ...shown, text, lesson, name: () => nameOfExercise(list[stop]) };
  }

  // Opens the panel of a lesson whose text is shown already.
  open(lesson) {
    Object.assign(this, lesson);
    this.showPanel();
  }

  // Which one is shown, as works keep it.
  get lesson() {
    return { kind: this.kind, stop: this.stop };
  }

  choose(value) {
    const [kind, number] = value.split(' ');
    this.kind = kind;
    this.stop = Number(number) - 1;
    if (kind === '') this.close();
    else this.begin();
  }

  // The panel is that of what is shown: one goes back to an earlier stop with its title, and the
  // tour waits while one is elsewhere. A panel that was closed stays so.
  follow(lesson) {
    if (this.kind === '') return;
    if (!lesson) {
      if (this.kind === 'tour') this.leave();
    } else if (byId('lesson-panel').hidden || lesson.kind !== this.kind ||
      lesson.stop !== this.stop) {
      this.open(lesson);
    }
  }

  leave() {
    byId('lesson').value = '';
    setHidden(byId('lesson-panel'), true);
  }

  stopJudging() {
    clearTimeout(this.later);
    this.far.forget();
  }

  close() {
    this.stopJudging();
    this.kind = '';
    byId('lesson').value = '';
    byId('lesson-panel').hidden = true;
    byId('lesson').focus();
    this.app.saved();
  }

  moveBy(count) {
    const at = this.stop + count;
    if (at < 0 || at >= this.list.length) return;
    this.stop = at;
    this.begin();
  }

  // Shows the panel, and what the lesson begins with.
  begin(isAnew = false) {
    const lesson = this.list[this.stop];
    this.showPanel();
    if (this.kind === 'exercise') this.write(lesson, isAnew);
    else this.visit(lesson.address);
  }

  get head() {
    const { kind, list, stop } = this;
    const title = titleIn(list[stop]);
    if (isOwn(list[stop])) return phrase('Your own exercise: {0}', title);
    const count = kind === 'exercise' ? list.filter(isOfPage).length : list.length;
    return phrase(HEADS[kind], stop + 1, count, title);
  }

  showPanel() {
    const lesson = this.list[this.stop];
    byId('lesson').value = this.kind === 'tour' ? 'tour 1' : `${this.kind} ${this.stop + 1}`;
    setText(byId('lesson-title'), this.head);
    setText(byId('lesson-text'),
      this.kind === 'exercise' ? taskInWords(lesson) : phrase(lesson.task));
    showInputs(byId('lesson-inputs'), this.kind === 'exercise' ? lesson : undefined);
    byId('lesson-panel').hidden = false;
    this.stopJudging();
    if (this.kind === 'exercise') this.learnWanted(lesson);
    setHidden(byId('judge'), this.kind === 'tour');
    setHidden(byId('hand-in'), this.kind !== 'exercise' || !areHandedIn());
    setDisabled(byId('lesson-back'), this.stop === 0);
    setDisabled(byId('lesson-on'), this.stop === this.list.length - 1);
    this.say({ isRight: false, said: '' });
    this.app.saved();
  }

  // What is wanted stands in the table once the reference was run.
  async learnWanted(exercise) {
    const isLearned = await learnWanted((...call) => this.ask(...call), this.app.core, exercise);
    if (isLearned && exercise === this.list?.[this.stop]) {
      showInputs(byId('lesson-inputs'), exercise);
    }
  }

  // The own program that an exercise was begun with, the newest one.
  begunOf(exercise) {
    return this.app.drafts.list.find(({ text }) => isOf(exercise, text));
  }

  // An exercise that was begun goes on; what someone sent stays. One that is only looked at is no
  // program of one's own yet.
  write(exercise, isAnew) {
    const { app } = this;
    if (app.view !== 'lockstep') app.turnTo('lockstep');
    if (!isAnew && app.work.name === undefined && isOf(exercise, app.text)) {
      app.work.lesson = this.lesson;
      return;
    }
    const begun = isAnew ? undefined : this.begunOf(exercise);
    const name = this.nameOf('{0}');
    const more = { draft: begun?.number, name, lesson: this.lesson };
    app.choose(begun?.text ?? startOf(exercise), more);
  }

  async visit(address) {
    const { app, lesson } = this;
    const shown = await readAddress(address, app.examples);
    app.leave();
    app.showAddress(shown, { lesson });
    app.link.push();
  }

  // An exercise is judged by its text, and a puzzle by what is shown, once that is compiled.
  async judge() {
    this.stopJudging();
    const { app } = this;
    const lesson = this.list[this.stop];
    app.editor.look();
    if (this.kind === 'exercise') {
      this.say({ isRight: false, said: phrase('It is being judged.') });
      const { text } = app;
      this.tell(await judgeExercise((...call) => this.ask(...call), lesson, text), text);
    } else if (app.isWaiting) {
      this.later = setTimeout(() => this.judge(), PAUSE);
    } else if (app.job && !app.isStale) {
      this.tell(judgePuzzle(lesson, app.views.workers.board, this.outcome()), app.text);
    } else {
      this.say({ isRight: false, said: phrase('Not yet: the program has a fault.') });
    }
  }

  // What was judged; what is right stays marked.
  tell(judged, text) {
    this.say(judged);
    if (!judged.isRight) return;
    keepSolved(keyOf(this.kind, this.list, this.stop), text);
    this.fillMenu();
    setHidden(byId('hand-in'), this.kind !== 'exercise');
  }

  // Calls the core in the thread of lessons; what was asked for before is forgotten.
  ask(name, wanted) {
    this.far.forget();
    return new Promise((done) => { this.far.ask(name, wanted, done); });
  }

  // What the board answers after all acts.
  outcome() {
    const { core, job, schedule } = this.app;
    const events = schedule.events.upTo(schedule.length);
    return core.outcome(job.text, job, schedule.workers, events);
  }

  say({ isRight, said, given }) {
    this.given = given;
    setText(byId('lesson-said'), said);
    byId('lesson-said').className = isRight ? 'said right' : 'said';
    setHidden(byId('lesson-said'), said === '');
    setHidden(byId('lesson-try'), given === undefined);
  }
}

// The exercises that came with the page are read by the core.
export function openLessons(app, exercises) {
  return new Lessons(app, exercises.map(({ name, text }, k) =>
    readExercise(app.core, text, { name, number: k + 1 })));
}
