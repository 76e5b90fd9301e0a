// The proved core in a thread of its own, for calls that take long.
import { adversaryCalls } from './adversary.js';
import { openCore } from './core.js';
import { readText } from './reading.js';
import { trialCalls } from './trials.js';

async function open(bytes) {
  const core = await openCore(bytes);
  return {
    ...core, ...trialCalls(core), ...adversaryCalls(core),
    readText: (text) => readText(core, text),
  };
}

let core;

globalThis.addEventListener('message', async ({ data: { bytes, name, wanted } }) => {
  core ??= open(bytes);
  const told = (await core)[name](...wanted);
  globalThis.postMessage({ told });
});
