// Numbers and structs in the core's memory, as its sources lay them out. The memory is read as
// words of 32 bits.
import { FIELDS, SIZES } from './declared.js';

const WORD = SIZES.u32;

// How many bytes a number or a struct has, and how many words.
export const sizeOf = (type) => SIZES[type];
export const wordsOf = (type) => sizeOf(type) / WORD;

export const wordAt = (address) => Number(address) / WORD;
export const wide = (memory, at) => memory[at] + memory[at + 1] * 2 ** 32;

const NUMBERS = { u32: (memory, at) => memory[at], u64: wide };
const readerOf = (type) =>
  NUMBERS[type] ?? ((memory, at) => readStruct(memory, at, type));

// The fields of a struct: their names, how many words stand before each, and how it is read. Those
// of its status stand among them.
const fieldsOf = (struct, start = 0) => Object.entries(FIELDS[struct]).flatMap(([name, place]) => {
  const [bytes, type = 'u32'] = [place].flat();
  const offset = start + bytes / WORD;
  return type === 'Status' ? fieldsOf(type, offset) : [{ name, offset, read: readerOf(type) }];
});

const STRUCTS = Object.fromEntries(
  Object.keys(FIELDS).map((struct) => [struct, fieldsOf(struct)]));

// By the names of a struct's fields how many words stand before each.
export const offsetsOf = (struct) =>
  Object.fromEntries(STRUCTS[struct].map(({ name, offset }) => [name, offset]));

export function readStruct(memory, at, struct) {
  const told = {};
  for (const { name, offset, read } of STRUCTS[struct]) told[name] = read(memory, at + offset);
  return told;
}

// So many numbers or structs, one after the other.
export function readElements(memory, at, type, count) {
  const [size, read] = [wordsOf(type), readerOf(type)];
  return Array.from({ length: count }, (_, k) => read(memory, at + k * size));
}
