// The job by workers: an adversary's schedule, one atomic step at a time.
import { ACT, MOST_WORKERS, actOf } from './acts.js';
import { AdversaryPanel } from './adversary_panel.js';
import { Board } from './board.js';
import { labelOf, openCells } from './cells.js';
import { CODE, PASS } from './declared.js';
import { byId, onClick, setDisabled, setHidden, setText } from './dom.js';
import { isChange } from './effects.js';
import { Errands } from './errands.js';
import { isFinish } from './film.js';
import { namesOfBodies } from './meaning.js';
import { grouped } from './numbers.js';
import { outcomeInWords } from './outcomes.js';
import { passName } from './phases.js';
import { PlaceWords } from './place_words.js';
import { openPlan, showPlan } from './plan_export.js';
import { openPlayer } from './player.js';
import { openSlider } from './slider.js';
import { StepsList } from './steps_list.js';
import { Tree } from './tree.js';
import { counted, english, phrase } from './words.js';
import { actOfAction, isGoing, openCards } from './worker_cards.js';

const ROUNDS = { 'all-1': 1, 'all-10': 10, 'all-100': 100 };
const END_ROUNDS = 1024;
const SEEK_ROUNDS = 256;

const whatIfInWords = ({ nameOf, at, made }) => counted(made,
  'What if {1} is lost at moment {2}? The others make {0} atomic step more.',
  'What if {1} is lost at moment {2}? The others make {0} atomic steps more.',
  nameOf(), grouped(at));

export class WorkersView {
  constructor(app) {
    const show = () => this.show();
    const moveTo = (moment) => this.moveTo(moment);
    this.app = app;
    this.board = new Board(app);
    this.errands = new Errands();
    this.tree = new Tree();
    this.cards = openCards((action, body) => this.act(action, body));
    this.cells = openCells('read-cells', english('Cells as a reader gets them'), show);
    this.slider = openSlider(() => app.schedule, () => this.changed());
    this.placeWords = new PlaceWords(app, show, moveTo);
    this.steps = new StepsList(show, moveTo);
    this.player = openPlayer(byId('play'), byId('speed'), (beats) => this.play(beats));
    openPlan(app);
    this.adversary = new AdversaryPanel(app, this);
    this.listen();
  }

  listen() {
    const { schedule } = this.app;
    for (const [id, count] of Object.entries(ROUNDS)) onClick(id, () => this.goRounds(count));
    onClick('to-end', () => this.goToEnd());
    onClick('next-change', () => this.seek(isChange));
    onClick('next-finish', () => this.seek(isFinish));
    onClick('undo-acts', () => this.undo());
    onClick('redo-acts', () => this.redo());
    onClick('reset', () => this.restart(this.app.schedule.workers));
    onClick('before', () => this.goBack());
    onClick('save-tree', () => this.tree.save());
    byId('plan-part').addEventListener('toggle', () => this.show());
    byId('worker-count').value = schedule.workers;
    byId('worker-count').addEventListener('change', (event) =>
      this.restart(Number(event.target.value)));
    this.cells.list.addEventListener('click', (event) => this.choosePlace(event.target));
  }

  get keys() {
    const keys = {
      ArrowLeft: () => this.slider.moveBy(-1),
      ArrowRight: () => this.goOn(),
      Home: () => this.slider.moveTo(0),
      End: () => this.slider.moveTo(this.app.schedule.length),
      a: () => this.goRounds(1),
      n: () => this.seek(isChange),
      f: () => this.seek(isFinish),
      undo: () => this.undo(),
      redo: () => this.redo(),
      ' ': () => this.player.toggle(),
    };
    for (let body = 0; body < MOST_WORKERS; body += 1) {
      keys[body] = () =>
        byId('cards').children[body]?.querySelector('[data-action=step]').click();
    }
    return keys;
  }

  pause() {
    this.player.pause();
    this.errands.stop();
    this.adversary.stop();
    this.mark = undefined;
  }

  changed() {
    this.app.saved();
    this.show();
  }

  // Something was told of the whole run.
  hearFar() {
    this.show();
  }

  moveTo(moment) {
    this.pause();
    this.slider.moveTo(moment);
  }

  restart(workers) {
    this.pause();
    this.app.schedule.restart(workers);
    this.changed();
  }

  undo() {
    this.pause();
    this.app.schedule.undo();
    this.changed();
  }

  redo() {
    this.pause();
    this.app.schedule.redo();
    this.changed();
  }

  goRounds(count) {
    this.pause();
    this.board.goRounds(count);
    this.changed();
  }

  // One moment on; at the end of the schedule the worker whose turn it is makes a step.
  goOn() {
    const { schedule } = this.app;
    if (!schedule.isAtEnd) {
      this.slider.moveBy(1);
      return;
    }
    this.pause();
    this.board.step(this.board.goingInTurn().slice(0, 1));
    this.changed();
  }

  // Does a piece after the other, of more and more rounds, and shows the last one's end.
  run(piece, rounds, onEnd = () => {}) {
    let count = rounds;
    this.errands.start({
      piece: () => {
        const isMore = piece(count);
        count *= 4;
        return isMore;
      },
      onPause: () => this.showErrand(),
      onEnd: () => {
        onEnd();
        this.changed();
      },
    });
  }

  showErrand() {
    this.slider.show();
    setText(byId('outcome'), phrase('On the way. Any other click ends it here.'));
  }

  // Rounds until each worker is over, asleep or lost; all of them are undone at once.
  goToEnd(mark = {}, onEnd = undefined) {
    this.pause();
    this.run((count) => this.board.goRounds(count, mark).count > 0, END_ROUNDS, onEnd);
  }

  // To just after the next effect that is wanted: in the schedule, or else by rounds after its end.
  seek(isWanted) {
    this.pause();
    const { board } = this;
    const mark = {};
    const goOn = (count) => {
      const { isFound, count: made } = board.goRounds(count, mark, board.goingInTurn(), isWanted);
      return !isFound && made > 0;
    };
    if (board.seekInSchedule(isWanted)) this.changed();
    else this.run(goOn, SEEK_ROUNDS);
  }

  // A schedule that has a future is played as it is; after its end each worker goes in turn. What
  // was played at a time is undone at once.
  play(beats) {
    const { schedule } = this.app;
    if (!schedule.isAtEnd) {
      this.slider.moveBy(beats * schedule.workers);
      return true;
    }
    this.mark ??= {};
    const { count } = this.board.goRounds(beats, this.mark);
    this.changed();
    return count > 0;
  }

  act(action, body) {
    this.pause();
    if (action === 'if') {
      this.loseAndFinish(body);
      return;
    }
    this.addAct(action, body);
    this.changed();
  }

  addAct(action, body) {
    const { schedule } = this.app;
    const row = this.scene.bodies[body];
    const kind = actOfAction(action, row, schedule.sleepers().has(body));
    if (kind === ACT.GO) this.board.step([body]);
    else schedule.add([actOf(kind, kind === ACT.TWIN ? row.worker : body)]);
  }

  // What if this body is lost at this moment, and the others go on to their end?
  loseAndFinish(body) {
    const { schedule } = this.app;
    const { at } = schedule;
    const mark = {};
    const workers = schedule.bodies();
    const nameOf = () => namesOfBodies(workers, schedule.workers)[body];
    schedule.add([actOf(ACT.LOSE, body)], { mark });
    this.goToEnd(mark, () => {
      const { past, length } = schedule;
      schedule.whatIf = { depth: past.length, nameOf, at, made: length - at - 1 };
    });
  }

  // What was there before the last what-if that is not undone.
  goBack() {
    this.pause();
    const { schedule } = this.app;
    const { depth } = schedule.whatIf;
    while (schedule.past.length >= depth) schedule.undo();
    this.changed();
  }

  choosePlace(target) {
    const box = target.closest('li');
    if (!box) return;
    this.placeWords.choose(Number(box.dataset.cell));
    this.show();
  }

  show() {
    const { app, board } = this;
    if (!app.job || app.view !== 'workers') return;
    board.place = this.placeWords.place;
    this.scene = board.now();
    if (this.scene.code !== CODE.DONE) return;
    app.job.leaves = this.scene.leaves;
    this.showBodies();
    this.adversary.show();
    this.showCells();
    this.showControls();
    app.mark(this.marks);
  }

  // The line of a program in which the machine is after the last finished step.
  get marks() {
    const { app: { whole }, scene: { finished } } = this;
    const pace = whole.lines();
    const line = pace?.lineAt(pace.numberAt(finished));
    const mark = { kind: 'current next', badge: phrase('step {0}', grouped(finished)) };
    return new Map(line === undefined ? [] : [[line, mark]]);
  }

  showBodies() {
    const { app, scene } = this;
    const { schedule, job } = app;
    const workers = schedule.bodies();
    this.names = namesOfBodies(workers, schedule.workers);
    this.cards.show(job, scene.bodies, this.names, schedule.sleepers());
    this.tree.show(job, { ...scene, workers: schedule.workers }, workers);
    this.steps.show(job, schedule, this.names);
    this.placeWords.show(scene.stored, this.names);
    for (const pass of Object.values(PASS)) {
      setText(byId(`pass-name-${pass}`), passName(job.rule, pass));
    }
  }

  showCells() {
    const { app: { job }, scene: { pairs } } = this;
    this.cells.show(job.cells, (cell) => ({
      ...labelOf(job, cell), value: pairs[2 * cell + 1],
      note: phrase('step {0}', grouped(pairs[2 * cell])),
    }));
  }

  showControls() {
    const { schedule } = this.app;
    const sleepers = schedule.sleepers();
    const isOver = !this.scene.bodies.some((row, body) => isGoing(row) && !sleepers.has(body));
    const isIdle = isOver || (schedule.isAtEnd && schedule.isFull);
    byId('worker-count').value = schedule.workers;
    for (const id of [...Object.keys(ROUNDS), 'to-end', 'next-change', 'next-finish', 'play']) {
      setDisabled(byId(id), isIdle && (schedule.isAtEnd || !/^(next|play)/.test(id)));
    }
    setDisabled(byId('undo-acts'), schedule.past.length === 0);
    setDisabled(byId('redo-acts'), schedule.future.length === 0);
    setDisabled(byId('reset'), schedule.length === 0);
    setHidden(byId('full'), !schedule.isFull);
    this.slider.show();
    this.showOutcome(isOver);
    if (byId('plan-part').open) showPlan(this.app);
  }

  // What the what-if told, as long as it is not undone.
  get whatIf() {
    const { schedule } = this.app;
    if (schedule.whatIf?.depth > schedule.past.length) schedule.whatIf = undefined;
    return schedule.whatIf;
  }

  showOutcome(isOver) {
    const { app: { job, answer, whole }, board, scene, whatIf } = this;
    const isAnswered = isOver || scene.conflict > 0 || scene.finished === job.steps;
    const told = isAnswered
      ? outcomeInWords(job, board.outcome(), answer, whole.fates())
      : counted(job.steps, 'Finished: {1} of {0} step.', 'Finished: {1} of {0} steps.',
        grouped(scene.finished));
    setText(byId('outcome'), whatIf ? `${whatIfInWords(whatIf)} ${told}` : told);
    byId('outcome').className = scene.conflict > 0 ? 'said bad' : 'said';
    setHidden(byId('before'), whatIf === undefined);
  }
}
