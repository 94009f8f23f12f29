// Makes recorded calls again in WebAssembly, as replay.c does on other chips:
//     node replay.mjs hutplan.wasm CALLS RECORDED
// CALLS has the lines of calls.awk. Prints one line; exit status 1 at the first difference.
import { readFileSync } from 'node:fs';

const GUARD = 64, GUARD_BYTE = 0xA5, NOWHERE = 255;
const [wasm, lines, recorded] = process.argv.slice(2);
const { exports } = new WebAssembly.Instance(new WebAssembly.Module(readFileSync(wasm)));
const calls = new Map(readFileSync(lines, 'utf8').trim().split('\n').map(line => {
    const [name, ...words] = line.split(' ');
    const kinds = words.map(word => {
        const [written, entry, count] = word.split(':');
        return word === 'number' ? null : { written: written === 'out', size: entry === 'f64' ? 8 : 1, fixed: count !== 'any' };
    });
    return [name, kinds];
}));
const file = readFileSync(recorded);
const made = new Map([...calls.keys()].map(name => [name, 0]));
let at = 0;

function number(bytes) {
    at += bytes;
    return bytes === 8 ? file.readBigUInt64LE(at - 8) : file.readUIntLE(at - bytes, bytes);
}

function taken(bytes) {
    at += bytes;
    return file.subarray(at - bytes, at);
}

// The next call: its name, what it returned, the words to give, and for each buffer where it lies, what it holds before
// and what it is to hold after the call.
function next() {
    const name = taken(number(1)).toString('latin1');
    if (!calls.has(name)) throw new Error(`not a file of recorded calls: ${name}`);
    const call = { name, returned: number(4), words: [], buffers: [], end: exports.__heap_base.value };
    for (const kind of calls.get(name)) {
        if (kind === null) {
            call.words.push(number(8));
            continue;
        }
        const length = number(4), place = number(1), before = taken(length);
        const start = Math.ceil((call.end + GUARD) / 16) * 16 + (place === NOWHERE ? 0 : place);
        call.buffers.push({ start, before, after: kind.written ? taken(length) : before });
        call.words.push(place === NOWHERE ? 0 : start);
        if (!kind.fixed) call.words.push(BigInt(length / kind.size));
        call.end = start + length;
    }
    return call;
}

// The memory from the first buffer's guard to the last one's, as the call should find or leave it.
function image(call, which) {
    const from = exports.__heap_base.value;
    const bytes = Buffer.alloc(call.end + GUARD - from, GUARD_BYTE);
    for (const buffer of call.buffers) buffer[which].copy(bytes, buffer.start - from);
    return bytes;
}

function replay(call) {
    const from = exports.__heap_base.value, short = call.end + GUARD - exports.memory.buffer.byteLength;
    if (short > 0) exports.memory.grow(Math.ceil(short / 65536));
    new Uint8Array(exports.memory.buffer).set(image(call, 'before'), from);
    const returned = exports[call.name](...call.words);
    const now = Buffer.from(exports.memory.buffer, from, call.end + GUARD - from);
    return returned === call.returned && now.equals(image(call, 'after'));
}

while (at < file.length) {
    const call = next();
    if (!replay(call)) {
        console.log(`a difference: ${call.name}, before byte ${at} of ${recorded}`);
        process.exit(1);
    }
    made.set(call.name, made.get(call.name) + 1);
}
const counts = [...made].map(([name, count]) => `${name.replace('hutplan_', '')} ${count}`);
const all = [...made.values()].every(count => count > 0);
console.log(`${[...made.values()].reduce((a, b) => a + b)} calls as recorded: ${counts.join(', ')}${all ? '' : '; some call was never made'}`);
process.exit(all ? 0 : 1);
