// The address, which carries what is shown, the browser's history of chosen programs, and the link
// for others.
import { readAddress, writeAddress } from './address.js';
import { byId, onClick, setText } from './dom.js';
import { keepShown, shownAgain } from './leaving.js';
import { english, phrase } from './words.js';

const QUIET = 400;
const LOCAL = /^(localhost|127\.|\[::1\]|192\.168\.|10\.)/;

const COPIED = english('The link is copied.');
const TO_COPY = english('Copy it from the field.');
const TOO_LONG =
  english('The program or the schedule is too long for a link: save it, and send the file.');
const FILE = english('This page is a file of yours, so what is copied is no whole link: others ' +
  'need the file playground.html too, and open it with this, from # on, after its address.');
const NEARBY = english('It works for those alone who reach this computer or its network.');

// How the link begins, and what is said once it is copied, and where it is not: what another one
// needs besides it, too.
function whatIsMissing() {
  const { protocol, hostname, origin, pathname } = location;
  const page = origin + pathname;
  if (protocol !== 'http:' && protocol !== 'https:') {
    return { start: 'playground.html', copied: [FILE], uncopied: [FILE, TO_COPY] };
  }
  const isLocal = LOCAL.test(hostname) || hostname.endsWith('.local');
  const near = isLocal ? [NEARBY] : [];
  return { start: page, copied: [COPIED, ...near], uncopied: [...near, TO_COPY] };
}

// From a frame the whole page is a click away.
function showWhole(address = '') {
  const whole = new URL(location.href);
  whole.search = '';
  whole.hash = address;
  byId('whole').firstElementChild.href = whole.href;
}

const MOST_ADDRESSES = 8;

const isFrame = window !== window.top;

export class Link {
  constructor(app, examples, onAddress) {
    Object.assign(this, { app, examples, onAddress, isOpen: false, addresses: [] });
    this.life = Date.now();
    onClick('copy-link', () => this.copy());
    window.addEventListener('popstate', (event) => this.goBack(event.state));
    window.addEventListener('hashchange', () => this.read());
  }

  address() {
    return writeAddress(this.app, this.examples);
  }

  // Which work is shown, and from which opening of the page on that says something.
  get state() {
    return { life: this.life, work: this.app.work.number };
  }

  // Puts the address, and which work it shows, into the browser's history.
  enter(hash) {
    history.replaceState(this.state, '', hash || location.href);
    this.written = location.hash;
    this.note();
  }

  // Notes the address as the last one.
  note() {
    const { hash } = location;
    const others = this.addresses.filter((address) => address !== hash);
    this.addresses = [hash, ...others].slice(0, MOST_ADDRESSES);
  }

  // Keeps what is shown for the page when it is loaded anew. Frames of one tab would keep it for
  // each other.
  keep() {
    if (!this.isOpen || isFrame) return;
    this.note();
    const { app, examples, addresses } = this;
    keepShown(app, examples, { draft: app.work.draft, addresses });
  }

  // The address follows what is shown, a moment after the last change.
  async write() {
    const { work } = this.app;
    const address = await this.address();
    if (work !== this.app.work) return address;
    setText(byId('link-said'), address === undefined ? phrase(TOO_LONG) : '');
    showWhole(address);
    const { frame } = this.app;
    this.enter(`#${[frame.address, address].filter(Boolean).join('&')}`);
    return address;
  }

  later() {
    clearTimeout(this.timer);
    this.timer = setTimeout(() => this.write(), QUIET);
  }

  // Has the browser's history go back to the work that is shown now, also where the address has not
  // followed it yet.
  mark() {
    clearTimeout(this.timer);
    history.replaceState(this.state, '', location.href);
  }

  // A chosen program is a page of its own in the browser's history.
  push() {
    history.pushState(this.state, '', location.href);
    return this.write();
  }

  // Opens the page: with what was shown when it went, where it is loaded anew, and then the address
  // follows; else with what the address says.
  async open() {
    const again = isFrame ? undefined : await shownAgain(location.hash, this.examples);
    if (!again) return this.read();
    const { lesson, ...shown } = again.shown;
    this.show(await this.app.lessons.complete(again.shown).catch(() => shown), again.draft);
    return this.write();
  }

  // Shows what the address says. One that can't be read changes nothing that is shown.
  async read() {
    if (location.hash === this.written) return;
    let shown;
    try {
      const address = await readAddress(location.hash.slice(1), this.examples);
      shown = await this.app.lessons.complete(address);
    } catch (why) {
      setText(byId('link-said'), phrase('The address can\'t be read: {0}.', why.message));
      if (this.isOpen) return;
    }
    this.show(shown);
    showWhole(await this.address());
  }

  show(shown, draft) {
    this.isOpen = true;
    this.onAddress(shown, { draft });
    this.enter(location.hash);
  }

  // Back to a program that was shown before, with its schedule. One of an earlier opening of the
  // page is read from its address.
  goBack(state) {
    if (state?.life !== this.life || !this.app.showWork(state.work)) return;
    this.written = location.hash;
    this.later();
  }

  async copy() {
    const address = await this.write();
    if (address === undefined) return;
    const { start, copied, uncopied } = whatIsMissing();
    const field = byId('link');
    field.value = `${start}#${address}`;
    field.hidden = false;
    const isCopied =
      await navigator.clipboard?.writeText(field.value).then(() => true, () => false);
    if (!isCopied) field.select();
    const said = isCopied ? copied : uncopied;
    setText(byId('link-said'), said.map((text) => phrase(text)).join(' '));
  }
}
