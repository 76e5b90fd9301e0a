// core_of.js PAGE OUT.wasm: takes the core out of a page that was built.
import { readFileSync, writeFileSync } from 'node:fs';
import { inflateRawSync } from 'node:zlib';

const [page, out] = process.argv.slice(2);
const [, packed] = /<script type="text\/plain" id="core">([^<]*)</.exec(readFileSync(page, 'utf8'));
writeFileSync(out, inflateRawSync(Buffer.from(packed, 'base64')));
