// Long errands: pieces of work one after the other, which give the page back between them, so that
// a click is answered while they go on. One at a time.
const PATIENCE = 16;

// A page that is in sight is painted first.
function afterPaint(work) {
  if (document.hidden) setTimeout(work);
  else requestAnimationFrame(() => setTimeout(work));
}

export class Errands {
  constructor() {
    this.count = 0;
  }

  // `piece` tells whether there is more to do, at once or with a promise; `onPause` is called
  // between pieces that take long, and `onEnd` after the last one.
  start({ piece, onPause, onEnd }) {
    this.stop();
    const number = this.count;
    let wait = afterPaint;
    const go = () => {
      const end = performance.now() + PATIENCE;
      let isMore = true;
      while (isMore === true && performance.now() < end) isMore = piece();
      if (isMore === false) {
        onEnd();
        return;
      }
      onPause();
      wait(async () => {
        const goesOn = await isMore;
        if (number !== this.count) return;
        if (goesOn) go();
        else onEnd();
      });
      wait = setTimeout;
    };
    go();
  }

  stop() {
    this.count += 1;
  }
}
