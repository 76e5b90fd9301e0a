// Playing: so many beats a second, until it is paused or `beat` says that nothing is left.
import { setAttribute, setText } from './dom.js';
import { english, phrase } from './words.js';

export function openPlayer(button, speed, beat) {
  let playing = false;
  let last = 0;
  let owed = 0;

  function set(now) {
    playing = now;
    setAttribute(button, 'aria-pressed', String(now));
    setText(button, phrase(now ? english('❚❚ Pause') : english('▶ Play')));
  }

  function frame(time) {
    if (!playing) return;
    owed += ((time - last) / 1000) * Number(speed.value);
    last = time;
    const beats = Math.min(Math.floor(owed), Number(speed.value));
    owed -= Math.floor(owed);
    if (beats > 0 && !beat(beats)) set(false);
    requestAnimationFrame(frame);
  }

  function start() {
    set(true);
    owed = 1;
    last = performance.now();
    requestAnimationFrame(frame);
  }

  button.addEventListener('click', () => (playing ? set(false) : start()));
  set(false);
  return {
    pause: () => set(false),
    toggle: () => button.click(),
  };
}
