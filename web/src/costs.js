// What the run costs, and the model that it needs.
import { MODELS } from './declared.js';
import { byId, fit, make, setHidden, setText } from './dom.js';
import { followText } from './following.js';
import { grouped } from './numbers.js';
import { nameOfPlace } from './places.js';
import { english, phrase } from './words.js';

const NEEDS = english('This run needs {0}. With other values at the start the same program may ' +
  'cost more, and need a stronger model.');

const OF_STEPS = english('A model is judged by the steps of the machine, of which a line is ' +
  'several: two who read one place in a line may read it in different steps.');

const NUMBERS = [
  [english('steps'), ({ steps }) => steps],
  [english('processors'), ({ procs }) => procs],
  [english('their product'), ({ steps, procs }) => steps * procs],
  [english('instructions executed'), ({ executed }) => executed],
  [english('most processors at work'), ({ most }) => most],
  [english('steps with a read'), ({ reading }) => reading],
  [english('steps with a write'), ({ writing }) => writing],
];

const makeNumber = (k) => make('div', {}, followText(make('dt'), NUMBERS[k][0]), make('dd'));

// By the model that it rules out, what two processors do with one place.
const MEETINGS = [
  english('Not {0}: in step {1} processors {2} and {3} read {4}.'),
  english('Not {0}: in step {1} processors {2} and {3} write {4}.'),
  english('Not {0}: in step {1} processors {2} and {3} write different values to {4}.'),
];

// The same with the line of a program that the step belongs to.
const MEETINGS_IN_LINES = [
  english('Not {0}: in line {5}, step {1}, processors {2} and {3} read {4}.'),
  english('Not {0}: in line {5}, step {1}, processors {2} and {3} write {4}.'),
  english('Not {0}: in line {5}, step {1}, processors {2} and {3} write different values to {4}.'),
];

function meetingInWords(job, { step, cell, first, second }, model, lines) {
  const line = lines?.lineAt(lines.numberAt(step - 1));
  const parts = [MODELS[model], grouped(step), first, second, nameOfPlace(job, cell)];
  return line === undefined ? phrase(MEETINGS[model], ...parts)
    : phrase(MEETINGS_IN_LINES[model], ...parts, grouped(line));
}

function needInWords(job, { needs }) {
  const said = phrase(NEEDS, MODELS[needs]);
  return job.source ? `${said} ${phrase(OF_STEPS)}` : said;
}

// `onStep` hears the step to go to.
export function openCosts(onStep) {
  const list = byId('cost-numbers');
  const reasons = byId('cost-reasons');
  const makeReason = () => make('li', {}, make('button', {
    type: 'button', class: 'to-moment', click: ({ target }) => onStep(Number(target.value)),
  }));

  return {
    show(job, cost, lines) {
      setHidden(byId('costs'), cost === undefined);
      if (!cost) return;
      fit(list, NUMBERS.length, makeNumber).forEach((part, k) =>
        setText(part.lastChild, grouped(NUMBERS[k][1](cost))));
      setText(byId('cost-model'), needInWords(job, cost));
      const ruling = cost.meetings.flatMap((meeting, model) =>
        (meeting.step > 0 ? [{ meeting, model }] : []));
      fit(reasons, ruling.length, makeReason).forEach((item, k) => {
        const { meeting, model } = ruling[k];
        item.firstChild.value = meeting.step - 1;
        setText(item.firstChild, meetingInWords(job, meeting, model, lines));
      });
    },
  };
}
