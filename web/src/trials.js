// Trials: what the core tells of a program's whole run, for who judges it. They are calls of many
// calls, and made in a thread.
import { countActive } from './activity.js';
import { CODE } from './declared.js';
import { TARGET } from './kinds.js';

// More steps than a program can take.
const MOST = 2 ** 21;

const isTold = (code) => code === CODE.DONE || code === CODE.CONFLICT;

export function trialCalls(core) {
  return {
    // The job and its answer, its costs and what became of the processors; and of each step that is
    // spoken of there the line.
    trial(text) {
      const made = core.compile(text);
      if (made.code !== CODE.DONE) return { made };
      const job = core.judge(made.text);
      const answer = core.answer(made.text, job, MOST);
      const cost = core.cost(made.text);
      const fates = core.fates(made.text);
      const bad = [job, answer, cost, fates].find(({ code }) => !isTold(code));
      if (bad) return { made: bad };
      const lineIn = (step) => made.lineOf[core.steps(made.text, step - 1, 1, MOST).list[0].at];
      const steps = [answer.step, fates.lost.step, ...cost.meetings.map(({ step }) => step)];
      const lines = new Map(steps.map((step) => [step, step > 0 ? lineIn(step) : 0]));
      return { made, job, answer, cost, fates, lines };
    },

    // What a program costs; a code alone where it has no end that is told.
    measure(text) {
      const made = core.compile(text);
      if (made.code !== CODE.DONE) return { code: made.code };
      const { code } = core.answer(made.text, core.judge(made.text), MOST);
      return code === CODE.DONE ? core.cost(made.text) : { code };
    },

    // How many processors are active in each of these lines: after how many steps it begins, and
    // the first cell of its mask.
    active(text, job, lines) {
      return lines.map(({ step, mask }) => {
        const { state } = core.moment(text, job, step, MOST);
        return state.code === CODE.DONE ? countActive(job, state.places, mask) : 0;
      });
    },

    // The line by which a cell was written last; nothing where it was not.
    lastWrite({ made, job, answer }, cell) {
      const { list } = core.steps(made.text, 0, answer.step, MOST);
      for (let step = answer.step - 1; step >= 0; step -= 1) {
        const { requests } = list[step].writing > 0 ? core.moment(made.text, job, step, MOST) : {};
        const found = requests?.list.find(({ target, number }) =>
          target === TARGET.CELL && number === cell);
        if (found) return made.lineOf[found.counter];
      }
      return undefined;
    },
  };
}
