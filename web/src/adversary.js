// An adversary's searches, in the thread of the core: a piece of one at a time, so that the page
// hears how far it is.
import { WholeSearch } from './adversary_all.js';
import { RandomSearch } from './adversary_random.js';
import { WorstSearch } from './adversary_worst.js';

const PIECE = 200;
const SEARCHES = { random: RandomSearch, worst: WorstSearch, all: WholeSearch };

export function adversaryCalls(core) {
  let search;

  // How far it is when a piece of time is over, or what was found.
  function goOn() {
    const end = performance.now() + PIECE;
    let isMore = true;
    while (isMore && performance.now() < end) isMore = search.goOn();
    return { isDone: !isMore, ...(isMore ? search.progress : search.found()) };
  }

  return {
    beginSearch(name, asked) {
      search = new SEARCHES[name](core, asked);
      return goOn();
    },
    goOnSearching: goOn,
  };
}
