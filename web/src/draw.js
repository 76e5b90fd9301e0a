// Numbers that look drawn by lot; the same seed gives the same ones.
const STEP = 0x6d2b79f5;

// The generator mulberry32 of T. Ettinger, which is in the public domain.
export class Draw {
  constructor(seed) {
    this.state = seed >>> 0;
  }

  // From 0 to less than 1.
  share() {
    this.state = (this.state + STEP) | 0;
    let mixed = Math.imul(this.state ^ (this.state >>> 15), 1 | this.state);
    mixed = (mixed + Math.imul(mixed ^ (mixed >>> 7), 61 | mixed)) ^ mixed;
    return ((mixed ^ (mixed >>> 14)) >>> 0) / 2 ** 32;
  }

  // A whole number below this one.
  below(most) {
    return Math.floor(this.share() * most);
  }

  isWithin(chance) {
    return this.share() < chance;
  }

  oneOf(list) {
    return list[this.below(list.length)];
  }
}
