// One's own programs, the newest first. They are kept in the browser, where it lets the page, and
// pages that are open at once agree on them.
const KEY = 'kaolinsilk drafts';
const KEY_OF_DELETED = 'kaolinsilk deleted drafts';
const MOST = 100;
const MOST_DELETED = 1000;
const MOST_CHARACTERS = 2000000;
const QUIET = 300;

const isDraft = (draft) => Number.isInteger(draft?.number) && typeof draft.text === 'string' &&
  ['string', 'undefined'].includes(typeof draft.name);

function listAt(key) {
  try {
    const found = JSON.parse(localStorage.getItem(key) ?? '[]');
    return Array.isArray(found) ? found : [];
  } catch {
    return [];
  }
}

const read = () => listAt(KEY).filter(isDraft).slice(0, MOST);

// The numbers of those that were deleted, by any page.
const readDeleted = () => new Set(listAt(KEY_OF_DELETED));

function writeDeleted(numbers) {
  try {
    localStorage.setItem(KEY_OF_DELETED, JSON.stringify([...numbers].slice(-MOST_DELETED)));
  } catch {
    // It is deleted as long as the page lasts.
  }
}

// Those that there is room for: a long one that has none takes none of the others'.
function fittingOf(list) {
  let room = MOST_CHARACTERS;
  return list.slice(0, MOST).filter(({ text }) => {
    const fits = text.length <= room;
    if (fits) room -= text.length;
    return fits;
  });
}

// Keeps these as far as there is room. Tells which are kept: the others last as long as the page.
function write(list) {
  const kept = fittingOf(list);
  try {
    localStorage.setItem(KEY, JSON.stringify(kept));
  } catch {
    return [];
  }
  return kept;
}

const byNumber = (list) => new Map(list.map((draft) => [draft.number, draft]));

const LEAST = 40;

// Whether a text is no version of the one before: hardly anything of it is left.
export function isAnother(before, after) {
  const most = Math.min(before.length, after.length);
  let [head, tail] = [0, 0];
  while (head < most && before.charCodeAt(head) === after.charCodeAt(head)) head += 1;
  const [last, end] = [before.length - 1, after.length - 1];
  while (tail < most - head && before.charCodeAt(last - tail) === after.charCodeAt(end - tail)) {
    tail += 1;
  }
  return before.length >= LEAST && head + tail < before.length / 4;
}

export class Drafts {
  // `on` has what follows where not all of them are kept, where one has another number, and where
  // another page changed some: of these the texts that they had, by their numbers.
  constructor(on) {
    this.on = on;
    this.list = read();
    this.known = byNumber(this.list);
    this.deleted = [];
    this.isWritten = true;
    window.addEventListener('storage', ({ key }) => {
      if (key === KEY || key === KEY_OF_DELETED) this.on.other(this.merge());
    });
  }

  find(number) {
    return this.list.find((draft) => draft.number === number);
  }

  // The draft that has a text that is opened: the one that is known, or another one.
  numberOf(text, known) {
    const hasIt = (draft) => draft?.text === text;
    const draft = this.find(known);
    return (hasIt(draft) ? draft : this.list.find(hasIt))?.number;
  }

  get freshNumber() {
    return Math.max(Date.now(), ...this.list.map(({ number }) => number + 1));
  }

  // Keeps a text as the draft of this number, or as a new one; tells its number.
  keep(text, number = this.freshNumber) {
    const others = this.list.filter((draft) => draft.number !== number);
    this.list = [{ number, text, name: this.find(number)?.name }, ...others];
    this.isWritten = false;
    clearTimeout(this.timer);
    this.timer = setTimeout(() => this.write(), QUIET);
    return number;
  }

  // Keeps what a text became: as the same draft, or as another one, so that nothing is overwritten
  // by what is no version of it, or one of an older version. Nothing is kept of an empty text.
  follow({ text: before, draft }, text) {
    if (text === '') return undefined;
    const goesOn = this.find(draft)?.text === before && !isAnother(before, text);
    return this.keep(text, goesOn ? draft : undefined);
  }

  // Keeps what is shown again after an undo, since the draft is what one sees; but what another page
  // made of it and nobody saw here, and one that was deleted, stays so.
  goBackTo({ text, draft }, works) {
    const found = this.find(draft);
    const wasSeen = found && works.some((work) => work.draft === draft && work.text === found.text);
    if (wasSeen && text !== '' && found.text !== text) this.keep(text, draft);
  }

  // Without a name it is called by its first line.
  rename(number, name) {
    this.list = this.list.map((draft) =>
      (draft.number === number ? { ...draft, name: name || undefined } : draft));
    this.writeNow();
  }

  // The last one that was deleted can be had again, and then the one before.
  delete(number) {
    this.merge();
    const found = this.find(number);
    if (!found) return;
    this.deleted.push(found);
    this.list = this.list.filter((draft) => draft !== found);
    writeDeleted(readDeleted().add(found.number));
    this.writeNow();
  }

  restore() {
    const found = this.deleted.pop();
    if (!found) return;
    const deleted = readDeleted();
    deleted.delete(found.number);
    writeDeleted(deleted);
    this.known.delete(found.number);
    this.list = [found, ...this.list];
    this.writeNow();
  }

  writeNow() {
    this.isWritten = false;
    this.write();
  }

  write() {
    if (this.isWritten) return;
    clearTimeout(this.timer);
    this.merge();
    this.isWritten = true;
    const kept = write(this.list);
    for (const draft of kept) this.known.set(draft.number, draft);
    this.on.kept(kept.length === this.list.length);
  }

  // Takes what other pages made of the drafts since they were read or written here. One that was
  // changed here and there is two from now on, and one that was changed here and deleted there is
  // another one. Tells the texts that were replaced, by number.
  merge() {
    const [there, deleted] = [byNumber(read()), readDeleted()];
    const before = byNumber(this.list);
    const isOwn = ({ number, text }) => text !== this.known.get(number)?.text;
    this.list = this.list.flatMap((draft) => {
      const theirs = there.get(draft.number);
      if (deleted.has(draft.number)) return isOwn(draft) ? [this.move(draft)] : [];
      if (!theirs || !this.isChanged(theirs)) return [this.withName(draft, theirs)];
      return isOwn(draft) && draft.text !== theirs.text ? [this.move(draft), theirs] : [theirs];
    });
    const others = [...there.values()].filter((draft) => !deleted.has(draft.number) &&
      !this.list.some(({ number }) => number === draft.number));
    this.list = this.isWritten ? [...others, ...this.list] : [...this.list, ...others];
    for (const [number, draft] of there) this.known.set(number, draft);
    return before;
  }

  isChanged({ number, text }) {
    return text !== this.known.get(number)?.text;
  }

  // A draft with the name that another page gave it, where none was given here.
  withName(draft, theirs) {
    const isNamedHere = draft.name !== this.known.get(draft.number)?.name;
    return !theirs || isNamedHere ? draft : { ...draft, name: theirs.name };
  }

  move(draft) {
    const number = this.freshNumber;
    this.on.moved(draft.number, number);
    return { ...draft, number };
  }
}
