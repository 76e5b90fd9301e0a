// What a built page has in it.
import { readFileSync } from 'node:fs';
import { inflateRawSync } from 'node:zlib';
import { openCore } from '../src/core.js';

function unpacked(path, id) {
  const part = new RegExp(`<script type="text/plain" id="${id}">([^<]*)<`);
  const [, packed] = part.exec(readFileSync(path, 'utf8'));
  return inflateRawSync(Buffer.from(packed, 'base64'));
}

export const coreBytesOf = (path) => unpacked(path, 'core');

export const exercisesOf = (path) => JSON.parse(unpacked(path, 'exercises').toString());

export const coreOf = (path) => openCore(coreBytesOf(path));

// The script of the page, and that of its thread.
export function scriptsOf(path) {
  const [, script] = /<script type="module">([^]*?)<\/script>/.exec(readFileSync(path, 'utf8'));
  return { script, thread: unpacked(path, 'far').toString() };
}
