// What the core's sources declare. In Node it is read from them; in the page its maker writes here
// what it read.
export * from '../link/declared.js';
