// Phases are numbered through the steps, three for each: compute first.
import { PASS, RULE } from './declared.js';
import { english, phrase } from './words.js';

const PASSES = 3;
const APPLY = english('apply');
const NAMES = {
  [PASS.COMPUTE]: english('compute'), [PASS.APPLY]: APPLY, [PASS.VERIFY]: english('verify'),
};
const CLAIMING = { ...NAMES, [PASS.APPLY]: english('claim'), [PASS.VERIFY]: APPLY };

export const passName = (rule, pass) => phrase((rule === RULE.PRIORITY ? CLAIMING : NAMES)[pass]);

export const passOfPhase = (phase) => (phase === 0 ? 0 : ((phase - 1) % PASSES) + 1);

export const stepOfPhase = (phase) => Math.ceil(phase / PASSES);

export const isLastPass = (phase) => passOfPhase(phase) === PASSES;
