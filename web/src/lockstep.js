// The plain machine in lockstep: its state after a step, and what each processor asks for next. A
// program goes on by its lines, or by the steps of the machine where one wants them.
import { openArrows } from './arrows.js';
import { openCells } from './cells.js';
import { openCosts } from './costs.js';
import { CODE } from './declared.js';
import { byId, onClick, setDisabled, setHidden, setText } from './dom.js';
import { Errands } from './errands.js';
import { GrowthPanel } from './growth_panel.js';
import { momentInWords } from './lockstep_words.js';
import { boxesOf, marksOf } from './memory_boxes.js';
import { saveMemory } from './memory_svg.js';
import { Moments } from './moments.js';
import { grouped, numberWithin } from './numbers.js';
import { LinePace, MachinePace } from './paces.js';
import { openPlayer } from './player.js';
import { openPlot } from './plot.js';
import { openProcessors } from './processors.js';
import { ProgramView } from './program_view.js';
import { Search, hasAccess, isAtLine } from './seek.js';
import { counted, english, phrase } from './words.js';

// Before what is said of a moment comes a note, such as that a search found nothing.
const NO_NOTE = () => '';

// A line shows what all of its steps ask for, where that is quickly made.
const MOST_ASKED = 400000;

export class LockstepView {
  constructor(app) {
    const show = () => this.show();
    this.app = app;
    this.moments = new Moments(app, () => this.hearFar());
    this.machinePace = new MachinePace(this.moments);
    this.processors = openProcessors(show);
    this.program = new ProgramView(app, show);
    this.cells = openCells('plain-cells', english('Cells after this step'), show);
    this.arrows = openArrows(show);
    this.plot = openPlot((step) => this.jump(step));
    this.costs = openCosts((step) => this.jump(step));
    this.growth = new GrowthPanel(app);
    this.errands = new Errands();
    this.note = NO_NOTE;
    this.player = openPlayer(byId('plain-play'), byId('plain-speed'), (beats) => this.play(beats));
    this.listen();
  }

  listen() {
    const chosen = byId('step');
    onClick('step-start', () => this.goToNumber(0));
    onClick('step-back', () => this.moveBy(-1));
    onClick('step-on', () => this.moveBy(1));
    onClick('step-end', () => this.goToNumber(this.pace.last));
    onClick('access-back', () => this.seekAccess(true));
    onClick('access-on', () => this.seekAccess(false));
    onClick('to-stop', () => this.seekStop());
    onClick('save-memory', () => saveMemory(byId('plain-said').textContent));
    byId('by-machine').addEventListener('change', () => this.show());
    chosen.addEventListener('change', () =>
      this.goToNumber(numberWithin(chosen.value, 0, this.pace.last, this.number)));
  }

  get keys() {
    return {
      ArrowLeft: () => this.moveBy(-1),
      ArrowRight: () => this.moveBy(1),
      Home: () => this.goToNumber(0),
      End: () => this.goToNumber(this.pace.last),
      n: () => this.seekAccess(false),
      p: () => this.seekAccess(true),
      s: () => this.seekStop(),
      ' ': () => this.player.toggle(),
    };
  }

  // By the lines of a program, as soon as they are told; else by the steps of the machine.
  get pace() {
    const isByLine = this.app.job?.source && !byId('by-machine').checked;
    return (isByLine && this.app.whole.lines()) || this.machinePace;
  }

  get number() {
    return this.pace.numberAt(this.app.step);
  }

  pause() {
    this.player.pause();
    this.errands.stop();
  }

  jump(step) {
    this.pause();
    this.goTo(step);
  }

  moveBy(count) {
    this.goToNumber(this.number + count);
  }

  goToNumber(number, note = NO_NOTE) {
    const { pace } = this;
    this.goTo(pace.stepAt(Math.max(0, Math.min(number, pace.last))), note);
  }

  goTo(step, note = NO_NOTE) {
    this.app.step = Math.max(0, Math.min(step, this.moments.last));
    this.note = note;
    this.app.saved();
    this.show();
  }

  // Goes to where a search ends; where nothing was found the next one is tried, or else it is said.
  seek(searches, none) {
    this.pause();
    let [search, ...rest] = searches;
    const goOn = (isMore) => {
      if (isMore || search.isFound || rest.length === 0) return isMore;
      [search, ...rest] = rest;
      return true;
    };
    this.errands.start({
      piece: () => {
        const isMore = search.look();
        return typeof isMore === 'boolean' ? goOn(isMore) : isMore.then(goOn);
      },
      onPause: () => setText(byId('plain-said'),
        phrase('Searching: step {0}.', grouped(search.step))),
      onEnd: () => this.goTo(search.step, search.isFound ? NO_NOTE : none),
    });
  }

  searchTo(to, isWanted) {
    return new Search(this.moments, this.app.step, to, isWanted);
  }

  // Of a program by its lines: to one that reads or writes a shared array or scalar.
  seekAccess(isBack) {
    const { pace, moments, app: { job, step } } = this;
    const [from, to, none] = isBack ? [step, 0, english('No earlier memory access.')]
      : [pace.spanAt(this.number).at(-1) ?? step, moments.last, english('No later memory access.')];
    const isWanted = hasAccess(pace instanceof LinePace ? job.source.shared : job.cells);
    this.seek([new Search(moments, from, to, isWanted)], () => phrase(none));
  }

  seekStop() {
    const { job, stops } = this.app;
    const none = () => phrase('No stop is reached any more.');
    if (this.seekLines((line) => stops.has(line), [this.number], none)) return;
    this.seek([this.searchTo(this.moments.last, isAtLine(job.program, stops))], none);
  }

  // To the next step in which a processor comes to the line; from the start where there is none.
  seekLine(line) {
    const { moments, app } = this;
    const none = () => phrase('No processor ever comes to line {0}.', grouped(line));
    if (this.seekLines((one) => one === line, [this.number, -1], none)) return;
    const isThere = isAtLine(app.job.program, new Set([line]));
    this.seek([this.searchTo(moments.last, isThere), new Search(moments, -1, app.step, isThere)],
      none);
  }

  // Where it goes on by lines: to the first line that is wanted after one of these numbers.
  seekLines(isWanted, numbers, none) {
    const { pace, number } = this;
    if (!(pace instanceof LinePace)) return false;
    this.pause();
    const [found] = numbers.map((from) => pace.find(from, isWanted))
      .filter((one) => one !== undefined);
    this.goToNumber(found ?? number, found === undefined ? none : NO_NOTE);
    return true;
  }

  // Plays on, up to a stop, which is searched for where steps are far.
  play(beats) {
    const { app, moments, pace } = this;
    if (pace instanceof LinePace) return this.playLines(pace, beats);
    const to = Math.min(app.step + beats, moments.last);
    if (app.stops.size > 0 && !moments.isNear(to)) {
      this.seekStop();
      return false;
    }
    const isStop = isAtLine(app.job.program, app.stops);
    const found = app.stops.size > 0 ? this.searchTo(to, isStop).finish() : { step: to };
    this.goTo(found.step);
    return !found.isFound && app.step < moments.last;
  }

  playLines(pace, beats) {
    const { stops } = this.app;
    const to = Math.min(this.number + beats, pace.last);
    const stop = pace.find(this.number, (line) => stops.has(line), to);
    this.goToNumber(stop ?? to);
    return stop === undefined && to < pace.last;
  }

  // Something far was told: it is shown, or it stands beside what is shown.
  hearFar() {
    const { app, moments } = this;
    const isOther = this.shown !== app.step || this.shownPace !== this.pace;
    if (isOther) this.show();
    else if (moments.isThere(app.step)) this.showRun();
  }

  show() {
    const { app, moments } = this;
    if (!app.job || app.view !== 'lockstep') return;
    const { pace } = this;
    this.shown = undefined;
    this.shownPace = pace;
    const isAhead = app.isAnswering && app.step > moments.last;
    if (!isAhead) app.step = pace.stepAt(pace.numberAt(app.step));
    this.showButtons(pace);
    if (isAhead || !moments.isThere(app.step)) {
      setText(byId('plain-said'), app.step === 0 ? phrase('Making the start.')
        : counted(app.step, 'Making {0} step.', 'Making {0} steps.'));
      return;
    }
    const state = moments.state(app.step);
    if (state.code !== CODE.DONE) return;
    this.shown = app.step;
    this.now = this.momentOf(pace, state.places);
    this.showInText(pace);
    this.showCells(pace);
    this.showRun();
  }

  // What the processors ask for in these steps; where that takes long, in those that are kept.
  askedIn(steps) {
    const { moments, app: { job } } = this;
    const cost = steps.reduce((sum, step) => sum + step * job.procs, 0);
    return steps.filter((step) => cost <= MOST_ASKED || moments.hasKept(step))
      .map((step) => moments.requests(step));
  }

  momentOf(pace, places) {
    const number = pace.numberAt(this.app.step);
    const asked = this.askedIn(pace.spanAt(number));
    const last = asked.at(-1);
    return {
      number,
      places,
      asked: asked.map(({ list }) => list),
      before: this.askedIn(pace.spanAt(number - 1)).map(({ list }) => list),
      fault: last?.code === CODE.CONFLICT ? last : undefined,
    };
  }

  // What the core tells of the whole run stands beside the moment as soon as it is there.
  showRun() {
    const { app, now, pace } = this;
    const { whole, job, step } = app;
    if (this.shown !== step || !now) return;
    const isByLine = pace instanceof LinePace;
    setHidden(byId('program-processors'), !isByLine);
    setHidden(byId('processors'), isByLine);
    if (isByLine) {
      this.say(this.program.wordsOf(now, pace), now.fault);
      this.program.show(now, pace);
    } else {
      this.say(momentInWords(app, now.asked[0], now.fault), now.fault);
      this.processors.show(job, now.places, now.asked[0], () => whole.lastAt(step));
    }
    const steps = Math.max(pace.spanAt(now.number).length, 1);
    const last = this.moments.last;
    this.plot.show({ step, steps, last, procs: job.procs }, whole.stepsAbout(step));
    this.costs.show(job, whole.cost(), whole.lines());
    this.growth.show();
    app.heat.show();
  }

  showButtons(pace) {
    const { number, app: { job, stops } } = this;
    const { last } = pace;
    const isByLine = pace instanceof LinePace;
    byId('step').value = number;
    byId('step').max = last;
    setText(byId('step-name'), phrase(isByLine ? english('lines done') : english('after step')));
    setHidden(byId('machine-choice'), !job.source);
    for (const id of ['step-start', 'step-back', 'access-back']) {
      setDisabled(byId(id), number === 0);
    }
    for (const id of ['step-on', 'step-end', 'access-on']) setDisabled(byId(id), number >= last);
    setDisabled(byId('plain-play'), number >= last);
    setDisabled(byId('to-stop'), stops.size === 0 || number >= last);
  }

  say(words, fault) {
    setText(byId('plain-said'), `${this.note()} ${words}`.trim());
    byId('plain-said').className = fault ? 'said bad' : 'said';
  }

  showCells(pace) {
    const { app: { job }, now } = this;
    const isByLine = pace instanceof LinePace;
    const boxOf = boxesOf(job, now.places, now.asked, now.before, now.fault?.cell);
    const count = isByLine ? job.source.shared : job.cells;
    const range = this.cells.show(count, boxOf);
    const states = isByLine ? this.program.statesOf(now, pace) : undefined;
    this.arrows.show(job, now.asked, { list: this.cells.list, range, fault: now.fault, states });
  }

  showInText(pace) {
    const { app, now } = this;
    const marks = pace instanceof LinePace
      ? this.program.marksOf(now, pace) : marksOf(app.job.program, now.asked[0], now.fault);
    app.mark(marks);
  }
}
