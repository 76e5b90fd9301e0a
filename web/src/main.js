// The page: what it shows, and who is told when that changes.
import { openCore } from './core.js';
import { CODE } from './declared.js';
import { byId, ignoreDisabled, onClick, setDisabled, setHidden, setText } from './dom.js';
import { Drafts, isAnother } from './drafts.js';
import { Editor } from './editor.js';
import { endInWords } from './ends.js';
import { roomForEvents } from './event_words.js';
import { Far } from './far.js';
import { openFiles } from './files.js';
import { showFixes } from './fix_buttons.js';
import { openGallery } from './gallery.js';
import { Heat } from './heat.js';
import { listenToKeys } from './keys.js';
import { openLanguage } from './language.js';
import { openLessons } from './lessons.js';
import { Link } from './link.js';
import { LockstepView } from './lockstep.js';
import { LinePace } from './paces.js';
import { unpack } from './packing.js';
import { listenToPrinting } from './print.js';
import { answerFar, foundOf, refused, showJudgement, showWaiting } from './program.js';
import { isNear, readJob, readText } from './reading.js';
import { openReference } from './reference.js';
import { Schedule } from './schedule.js';
import { Source } from './source.js';
import { numberOfStanding, standingOf } from './standing.js';
import { openStops } from './stops.js';
import { openTabs } from './tabs.js';
import { Whole } from './whole.js';
import { phrase } from './words.js';
import { WorkersView } from './workers.js';
import { Works, makeWork } from './works.js';

const FIRST_EXAMPLE = 'prefix.pardo';
const WORKERS = 4;
const PAUSE = 1000;
const PATIENCE = 200;
const TELLING = 600;
const MOST_PACKED = 16777216;

// What is shown: a work, which is a text with its schedule and its step, the text's job and answer,
// and the view. The views read it, and change the schedule and the step. While one writes a text that
// has a fault the job is that of the last one that had none, `runText`.
class Playground {
  constructor(core, far, { examples, exercises }, frame) {
    Object.assign(this, { core, far, examples, frame, view: 'lockstep', written: -Infinity, isStale: false });
    this.firstShown = new Promise((done) => { this.onShown = done; });
    this.works = new Works(makeWork('', new Schedule(WORKERS)));
    this.drafts = new Drafts({
      kept: (areKept) => setHidden(byId('unkept'), areKept),
      moved: (draft, number) => this.works.renumber(draft, number),
      other: (before) => this.followDraft(before),
    });
    this.whole = new Whole(this, () => this.showRun());
    this.editor = new Editor({
      change: (text) => this.changeText(text),
      undo: () => this.undoText(-1),
      redo: () => this.undoText(1),
      toLine: (line) => this.toLine(line),
      stop: (line) => this.stopping.toggle(line),
    });
    this.gallery = openGallery({
      examples,
      drafts: this.drafts,
      choose: (text, draft) => this.choose(text, { draft }),
      workNow: () => this.work,
    });
    this.views = { lockstep: new LockstepView(this), workers: new WorkersView(this) };
    this.stopping = openStops(this.editor, {
      onChange: () => this.show(), toLine: (line) => this.toLine(line),
    });
    this.heat = new Heat(this, frame.part && frame.isHot);
    this.tabs = openTabs((view) => this.turnTo(view));
    this.lessons = openLessons(this, exercises);
    this.link = new Link(this, examples, (shown, more) => this.showAddress(shown, more));
    this.listen();
  }

  listen() {
    onClick('undo-text', () => this.undoText(-1));
    onClick('redo-text', () => this.undoText(1));
    ignoreDisabled();
    openFiles(this);
    listenToPrinting(this);
    window.addEventListener('pagehide', () => this.keep());
    document.addEventListener('visibilitychange', () => {
      if (document.hidden) this.keep();
    });
    const ofText = { undo: () => this.undoText(-1), redo: () => this.undoText(1) };
    listenToKeys(() => (this.job ? { ...ofText, ...this.keysOfView } : ofText));
  }

  // In a frame the keys of a remote control go on and back, too.
  get keysOfView() {
    const { keys } = this.views[this.view];
    return this.frame.part ? { PageUp: keys.ArrowLeft, PageDown: keys.ArrowRight, ...keys } : keys;
  }

  get work() {
    return this.works.now;
  }

  get text() {
    return this.work.text;
  }

  get schedule() {
    return this.work.schedule;
  }

  // The lesson whose panel is open.
  get lesson() {
    return this.lessons.shown;
  }

  get step() {
    return this.work.step;
  }

  set step(step) {
    this.work.step = step;
  }

  get stops() {
    return this.editor.stops;
  }

  // A view says that it changed what is shown.
  saved() {
    this.link.later();
  }

  // Keeps what was written just now, and what is shown: the page may go.
  keep() {
    this.editor.look();
    this.drafts.write();
    this.link.keep();
  }

  // Takes what was written: what is written from now on is a change of its own.
  settle() {
    this.editor.look();
    this.written = -Infinity;
  }

  // The same, before something is chosen: the browser's history goes back to what is shown now.
  leave() {
    this.settle();
    this.link.mark();
  }

  pause() {
    for (const view of Object.values(this.views)) view.pause();
  }

  show() {
    const isLost = this.job === undefined && byId('machine').contains(document.activeElement);
    byId('machine').hidden = this.job === undefined;
    byId('no-machine').hidden = this.job !== undefined;
    byId('machine').toggleAttribute('data-stale', this.isStale);
    setHidden(byId('stale'), !this.isStale);
    if (isLost) this.editor.area.focus();
    this.tabs.show(this.view);
    this.views[this.view].show();
    this.heat.show();
    this.showEnds();
    this.onShown();
  }

  // What became of the processors, as soon as it is told.
  showEnds() {
    setText(byId('ends'), this.job ? endInWords(this.job, this.whole.fates()) : '');
  }

  showRun() {
    this.returnToLine();
    this.showEnds();
    this.views[this.view].hearFar();
    this.heat.show();
  }

  // Marks lines of the run in the text, unless it is no longer that of the run.
  mark(marks) {
    if (this.isStale) return;
    this.editor.mark(marks);
    if (marks.size > 0 && this.view === 'lockstep') this.editor.reveal(Math.min(...marks.keys()));
  }

  // Shows the work of now, whose text stands in the editor: a program, or a text of the machine. It
  // may be a version of what was shown, and one that is being written.
  showNow({ isVersion = false, isWritten = false } = {}) {
    this.pause();
    clearTimeout(this.telling);
    this.editor.area.classList.remove('untold');
    Object.assign(this, { isVersion, isWritten });
    const { work, works } = this;
    this.lessons.follow(work.lesson);
    this.far.forget();
    if (isNear(work.text, 0)) this.read(readText(this.core, work.text));
    else this.wait('readText', phrase('It is being read.'), (told) => this.read(told));
    this.gallery.show(work);
    this.stopping.show();
    setDisabled(byId('undo-text'), !works.canUndo);
    setDisabled(byId('redo-text'), !works.canRedo);
  }

  // Has the other thread do something with the text. What was shown stays for a moment.
  wait(name, words, onTold) {
    this.isWaiting = true;
    this.found = undefined;
    clearTimeout(this.late);
    this.late = setTimeout(() => {
      this.isStale = this.canStay;
      if (!this.isStale) this.job = undefined;
      showWaiting(words);
      this.show();
    }, PATIENCE);
    this.far.ask(name, [this.text], onTold);
  }

  // A program is compiled in the other thread, since it is run for that.
  read({ read, told }) {
    this.isProgram = read.code !== CODE.OTHER_LANGUAGE;
    if (read.code === CODE.DONE) {
      this.wait('compile', phrase('It is being compiled, and run once.'), (made) =>
        this.hear(made.code === CODE.DONE ? this.compiled(read.list, made) : refused(made)));
    } else {
      this.hear(this.isProgram ? refused(read) : foundOf(told, this.text));
    }
  }

  compiled(lines, made) {
    return foundOf(readJob(this.core, made.text), made.text, new Source(lines, made));
  }

  // What the core says of the text.
  hear(found) {
    clearTimeout(this.late);
    Object.assign(this, { found, isWaiting: false });
    this.isStale = !found.job && this.canStay;
    if (!this.isStale) this.run(found);
    if (found.job || !this.isWritten) this.showFound();
    else this.tellLater();
    if (found.isAnswering) answerFar(this.far, found, (told) => this.hear(told));
    this.show();
  }

  // A fault is told once one pauses.
  tellLater() {
    this.editor.area.classList.add('untold');
    this.telling = setTimeout(() => {
      this.editor.area.classList.remove('untold');
      this.showFound();
    }, TELLING);
  }

  // Whether the machine is still one of the text that is being written.
  get canStay() {
    const { job, isVersion, runText, text } = this;
    return job !== undefined && isVersion && text !== '' && !isAnother(runText, text);
  }

  // Has the machine of this text, at the line where the one before stands.
  run({ job, answer, most, isAnswering }) {
    if (job !== this.job) this.returning = this.isWritten ? this.placeToKeep(job) : undefined;
    Object.assign(this, { job, answer, most, isAnswering, runText: this.text });
    this.returnToLine();
  }

  // By the steps of the machine the step stays; by lines it is found once those of the run are told.
  placeToKeep(job) {
    const { views: { lockstep: { shownPace: pace } }, view, step, runText, text } = this;
    if (!this.canStay) this.step = 0;
    const isByLine = job?.source && view === 'lockstep' && pace instanceof LinePace;
    return this.canStay && isByLine
      ? { to: standingOf(pace, pace.numberAt(step), runText, text) } : undefined;
  }

  returnToLine() {
    const pace = this.returning && this.whole.lines();
    if (!pace) return;
    this.step = pace.stepAt(numberOfStanding(pace, this.returning.to));
    this.returning = undefined;
  }

  showFound() {
    const { found, isAnswering } = this;
    if (!found) return;
    showJudgement(found, this, found.job && !isAnswering ? this.whole.lines() : undefined);
    showFixes(found, this, (text) => this.rewrite(text));
  }

  // Says all of it in another language.
  redraw() {
    this.pause();
    this.gallery.show(this.work);
    this.stopping.show();
    this.showFound();
    this.show();
    this.lessons.redraw();
    this.saved();
  }

  // What is written without a pause is one change, unless a schedule would go with it.
  changeText(text) {
    const { work, works } = this;
    const now = performance.now();
    const draft = this.drafts.follow(work, text);
    const isNew = now - this.written > PAUSE || draft !== work.draft || works.canRedo ||
      work.schedule.past.length > 0 || work.schedule.length > 0;
    this.written = now;
    const more = { draft, lesson: work.lesson, step: work.step };
    if (isNew) works.add(makeWork(text, new Schedule(work.schedule.workers), more));
    else Object.assign(work, { text });
    this.saved();
    this.showNow({ isVersion: true, isWritten: true });
  }

  // Writes another version of the text, as a change of its own.
  rewrite(text) {
    this.settle();
    this.editor.set(text, true);
    this.changeText(text);
  }

  undoText(count) {
    this.settle();
    if (!(count < 0 ? this.works.canUndo : this.works.canRedo)) return;
    this.works.moveBy(count);
    this.drafts.goBackTo(this.work, this.works.list);
    this.editor.set(this.text, true);
    this.saved();
    this.showNow({ isVersion: true });
  }

  // A chosen program, with a name where it is neither one's own nor of the gallery, and the lesson
  // that it belongs to; the one before it stays, to be undone or gone back to.
  choose(text, more) {
    this.leave();
    this.works.add(makeWork(text, new Schedule(this.schedule.workers), more));
    this.editor.set(text);
    this.link.push();
    this.showNow();
  }

  // Another page wrote on the own program that is shown: it is shown as it is there, and what stood
  // here is an undo away.
  followDraft(before) {
    this.settle();
    const { work, works, drafts } = this;
    const draft = drafts.find(work.draft);
    const { text } = draft ?? work;
    if (text === work.text || before.get(work.draft)?.text !== work.text) {
      this.gallery.show(work);
      return;
    }
    const { draft: number, lesson, isFollowing } = work;
    if (isFollowing) Object.assign(work, { text, schedule: new Schedule(work.schedule.workers) });
    else {
      const more = { draft: number, lesson, step: work.step, isFollowing: true };
      works.add(makeWork(text, new Schedule(work.schedule.workers), more));
    }
    this.editor.set(text, true);
    this.saved();
    this.showNow({ isVersion: true, isWritten: true });
  }

  // Shows a work of this number again, if it is still there.
  showWork(number) {
    this.settle();
    if (!this.works.show(number)) return false;
    this.editor.set(this.text);
    this.showNow();
    return true;
  }

  turnTo(view) {
    this.pause();
    this.view = view;
    this.saved();
    this.show();
  }

  toLine(line) {
    this.editor.look();
    if (!this.job || this.isStale) return;
    if (this.view !== 'lockstep') this.turnTo('lockstep');
    this.views.lockstep.seekLine(line);
  }

  // Shows what an address says, and the first example where it says nothing; `draft` is the one
  // that was shown there before, `lesson` the one that sends there.
  showAddress(shown, { draft, lesson = shown?.lesson } = {}) {
    this.settle();
    const first = this.examples.find((example) => example.name === FIRST_EXAMPLE);
    const text = shown?.text ?? (first ?? this.examples[0]).text;
    const work = makeWork(text, shown?.schedule ?? new Schedule(WORKERS),
      { step: shown?.step ?? 0, draft: this.drafts.numberOf(text, draft), lesson, name: shown?.name });
    if (this.text === '' && !this.works.canUndo) this.works = new Works(work);
    else this.works.add(work);
    this.view = shown?.view ?? this.view;
    this.editor.set(text);
    if (lesson) this.lessons.open(lesson);
    this.showNow();
  }
}

function sayTrouble(why) {
  byId('trouble').hidden = false;
  byId('trouble').textContent = phrase('Something went wrong in this page: {0}', why);
}

// In a frame of another page the machine stands alone, or the text, or both; and the heat of lines
// is shown where one asks for it.
const PARTS = ['1', 'text', 'both'];

function readFrame() {
  const fields = [location.search, location.hash].map((part) => new URLSearchParams(part.slice(1)));
  const part = fields.map((one) => one.get('embed')).find((one) => PARTS.includes(one));
  const isHot = fields.some((one) => one.get('heat') === '1');
  return { part, isHot, address: part && `embed=${part}${isHot ? '&heat=1' : ''}` };
}

// Each call once, of the least job: a browser compiles a function of the core when it is first
// called.
function warm(core) {
  core.lines('pardo 1\nrule crew\nprocs i < 1\nshared s\ncode\ns := i\n');
  const text = 'pram 1\ncells 1\nprocs 1\nsteps 1\ncode\nhalt\n';
  const job = core.judge(text);
  const events = roomForEvents(1);
  core.moment(text, job, 0, 1);
  core.scene(text, 1, events, { from: 0, places: job.places, place: 0, cells: job.cells });
  core.outcome(text, job, 1, events);
  core.fates(text);
  core.cost(text);
  core.steps(text, 0, 1, 1);
  core.last(text, job, 1, 1);
  core.starts(text, 1, 1, [0]);
}

const unpacked = (id) => unpack(byId(id).textContent, MOST_PACKED);

const readPacked = async (id) => new TextDecoder().decode(await unpacked(id));

async function start() {
  let app;
  const bytes = await unpacked('core');
  const examples = JSON.parse(await readPacked('examples'));
  const exercises = JSON.parse(await readPacked('exercises'));
  const script = await readPacked('far');
  const frame = readFrame();
  if (frame.part) document.documentElement.setAttribute('data-embed', frame.part);
  await openLanguage(async () => JSON.parse(await readPacked('words')), () => app?.redraw());
  const core = await openCore(bytes);
  app = new Playground(core, new Far(script, bytes), { examples, exercises }, frame);
  openReference(() => readPacked('documents'));
  await app.link.open();
  await app.firstShown;
  document.documentElement.setAttribute('data-ready', '');
  setTimeout(() => warm(core), 100);
}

window.addEventListener('error', (event) => sayTrouble(event.message));
window.addEventListener('unhandledrejection', (event) => sayTrouble(event.reason));
start();
