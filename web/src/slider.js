// The time slider of a schedule.
import { byId, setAttribute, setDisabled, setText } from './dom.js';
import { grouped } from './numbers.js';
import { phrase } from './words.js';

export function openSlider(schedule, onMove) {
  const slider = byId('moment');
  const moveTo = (moment) => {
    schedule().moveTo(moment);
    onMove();
  };
  const moveBy = (count) => moveTo(schedule().at + count);

  slider.addEventListener('input', () => moveTo(Number(slider.value)));
  byId('moment-start').addEventListener('click', () => moveTo(0));
  byId('moment-back').addEventListener('click', () => moveBy(-1));
  byId('moment-on').addEventListener('click', () => moveBy(1));
  byId('moment-end').addEventListener('click', () => moveTo(schedule().length));

  return {
    moveTo,
    moveBy,
    show() {
      const { at, length } = schedule();
      slider.max = length;
      slider.value = at;
      setAttribute(slider, 'aria-valuetext', phrase('moment {0} of {1}', at, length));
      setText(byId('moment-said'), phrase('{0} of {1}', grouped(at), grouped(length)));
      for (const id of ['moment-start', 'moment-back']) setDisabled(byId(id), at === 0);
      for (const id of ['moment-on', 'moment-end']) setDisabled(byId(id), at === length);
    },
  };
}
