// A schedule as a plan for `pramx replay`.
import { ACT, MOST_BODIES, bodyOf, kindOf } from './acts.js';

const HEAD = 'worker,act,ticks';

export function hasTwins(acts) {
  return acts.some((act) => kindOf(act) === ACT.TWIN);
}

// Most rows have one tick.
const SINGLE = Array.from({ length: MOST_BODIES }, (_, worker) => `${worker},go,1`);
const rowOf = (worker, ticks) => (ticks === 1 ? SINGLE[worker] : `${worker},go,${ticks}`);

// The rows of a plan, as many as asked for. A loss that is followed by a return is one row, at the
// return; the other losses stand at the end, since a lost worker makes no step.
export function rowsOfPlan(acts, most = Infinity) {
  const rows = [];
  const lost = new Set();
  let [goer, ticks] = [0, 0];
  const end = () => {
    if (ticks > 0) rows.push(rowOf(goer, ticks));
    ticks = 0;
  };
  for (let k = 0; k < acts.length && rows.length < most; k += 1) {
    const worker = bodyOf(acts[k]);
    const kind = kindOf(acts[k]);
    if (kind === ACT.GO && !lost.has(worker)) {
      if (goer !== worker) end();
      goer = worker;
      ticks += 1;
    }
    if (kind === ACT.LOSE) lost.add(worker);
    if (kind === ACT.BACK) {
      end();
      lost.delete(worker);
      rows.push(`${worker},back,0`);
    }
  }
  end();
  for (const worker of lost) rows.push(`${worker},stop,0`);
  return rows.slice(0, most);
}

export const textOfPlan = (rows) => (rows.length === 0 ? '' : `${HEAD}\n${rows.join('\n')}\n`);

// Acts with twins have no plan.
export const planOf = (acts) => textOfPlan(rowsOfPlan(acts));
