// Prints what the built code says of itself: the number of its release and the newest version of the sheet that it reads.
//
//   node release/ask.mjs WASM

import { readFileSync } from 'node:fs';

const { instance } = await WebAssembly.instantiate(readFileSync(process.argv[2]));
const { memory, hutplan_release: release, __heap_base: free } = instance.exports;
const at = Number(free.value);
if (release(at, 24n) !== 1) throw new Error('the call was not answered');
const answer = new DataView(memory.buffer, at, 24);
console.log(String(answer.getBigUint64(8, true)), String(answer.getBigUint64(16, true)));
