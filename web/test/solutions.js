// The exercises of exercises/ with their answers there, and schedules that solve the puzzles.
import { readFileSync, readdirSync } from 'node:fs';

const folder = new URL('../../exercises/', import.meta.url);
const read = (path) => readFileSync(new URL(path, folder), 'utf8');

// The names of the exercises, in the order of their table.
export const NAMES = [...read('README.md').matchAll(/^\|\d+\|`(\w+)`\|/gm)].map(([, name]) => name);

export const exerciseText = (name) => read(`${name}.exercise`);

// The answers of a kind to an exercise: `right`, `slow` or `wrong`.
export const answersOf = (name, kind) => readdirSync(new URL(`answers/${name}/`, folder)).sort()
  .filter((file) => file.startsWith(`${kind}-`)).map((file) => read(`answers/${name}/${file}`));

export const answerOf = (name, file) => read(`answers/${name}/${file}.pardo`);

// A schedule that solves each puzzle, in order.
export const SCHEDULES = ['0.1.2~l1.l2~0*16000', '0.1.2*46~0.1~s2~0.1*40~w2~2',
  '0.1.2*5~s2~0.1*400~w2~2*200'];

// Almost: one is lost for good, who sleeps has no swap to make, who wakes finishes nothing.
export const NO_SCHEDULES = ['0.1.2~l1.l2~b1~0*16000', '0.1.2*40~s2~0.1*40~w2~2',
  '0.1.2*5~s2~0.1*400~w2~2*20'];
