// The proved calls of include/hutplan.h, compiled for wasm, with lists of words as they are in JavaScript.
//
// Each call gives { number: 0, .. } with what was written, or { number, place }: the refusal.

const PAGE = 65536;
const WORD = 4;
const ANSWER = 16;

// The header's sizes, in words: enough for every accepted input, so that no output is too short.
const TABLE_WORDS = 2 + 3 * 512 + 1 + 4 * 512 + 2 * 1024;
const SHEET_BYTES = WORD * TABLE_WORDS;
const SERVERS = 512;
const CORDS = 1024;

const bytesOf = words => {
  const bytes = new Uint8Array(WORD * words.length);
  const view = new DataView(bytes.buffer);
  words.forEach((word, place) => view.setUint32(WORD * place, word, true));
  return bytes;
};

const wordsOf = (bytes, count) => {
  const view = new DataView(bytes.buffer, bytes.byteOffset);
  return Array.from({ length: count }, (_, place) => view.getUint32(WORD * place, true));
};

/// Memory of the module that belongs to the caller: pages behind those that the module came with. A call
/// takes what it needs from the front.
function lender(memory) {
  const base = memory.grow(4) * PAGE;
  let used = base;
  return {
    start() { used = base; },
    lend(length) {
      const at = used;
      used += (length + 7) & ~7;
      const missing = used - memory.buffer.byteLength;
      if (missing > 0) memory.grow(Math.ceil(missing / PAGE));
      return at;
    },
  };
}

/// Runs one exported call. An argument is bytes to read, { room: n } for bytes to be written, or a BigInt;
/// behind them stands the answer. Gives the answer's bytes, and those of each output.
function run(exports, memory, name, items, answerBytes) {
  memory.start();
  const lent = [...items, { room: answerBytes }].map(item => {
    if (typeof item === 'bigint') return { item };
    const length = item.room ?? item.length;
    return { item, length, at: memory.lend(length) };
  });
  // Views are made after all is lent: growing the memory ends those that were made before.
  const all = new Uint8Array(exports.memory.buffer);
  for (const { item, length, at } of lent) {
    if (typeof item === 'bigint') continue;
    if (item instanceof Uint8Array) all.set(item, at);
    else all.fill(0, at, at + length);
  }
  exports[name](...lent.flatMap(({ item, length, at }) =>
    (typeof item === 'bigint' ? [item] : [at, BigInt(length)])));
  return lent.filter(({ item }) => item.room !== undefined)
    .map(({ length, at }) => all.slice(at, at + length));
}

/// The numbers of an answer, eight bytes each.
const numbersOf = answer => {
  const view = new DataView(answer.buffer);
  return Array.from({ length: answer.length / 8 }, (_, place) => Number(view.getBigUint64(8 * place, true)));
};

/// The calls of a module, by the names of the operations. `has` tells which are in the build.
export function callsOf(instance) {
  const { exports } = instance;
  const memory = lender(exports.memory);
  const call = (name, items, written, answerBytes = ANSWER) => {
    const lists = run(exports, memory, `hutplan_${name}`, items, answerBytes);
    const [number, ...figures] = numbersOf(lists.pop());
    return number === 0 ? { number, ...written(lists, ...figures) } : { number, place: figures[0] };
  };
  const table = { room: WORD * TABLE_WORDS };
  const asTable = ([bytes], count) => ({ words: wordsOf(bytes, count) });
  return {
    has: name => typeof exports[`hutplan_${name}`] === 'function',
    read: sheet => call('read', [sheet, table], asTable),
    write: words => call('write', [bytesOf(words), { room: SHEET_BYTES }],
      ([sheet], count) => ({ sheet: sheet.slice(0, count) })),
    schedule: text => call('schedule', [text, table], asTable),
    plan: (words, demands, cords) => planOf(call, words, demands, cords),
    send: (servers, position, m) => call('send',
      [BigInt(servers), BigInt(position), BigInt(m), { room: WORD * SERVERS }],
      ([list], count, next) => ({ named: wordsOf(list, count), position: next }), 24),
    join: (first, second) => call('join', [bytesOf(first), bytesOf(second), table], asTable),
    part: (words, nodes, servers) => call('part', [bytesOf(words), BigInt(nodes), BigInt(servers), table, table],
      ([first, second], count, further) => ({ first: wordsOf(first, count), second: wordsOf(second, further) }), 24),
    release: () => call('release', [], (_, release, version) => ({ release, version }), 24),
    judge: (words, demands, grants) => call('judge', [bytesOf(words), bytesOf(demands), bytesOf(grants)],
      (_, verdict, what, rank) => ({ verdict, what, rank }), 32),
  };
}

/// Plan, of a table with so many cords.
function planOf(call, words, demands, cords) {
  const room = count => ({ room: WORD * count });
  return call('plan',
    [bytesOf(words), bytesOf(demands), room(CORDS), room(SERVERS), room(CORDS), room(CORDS)],
    ([grants, caps, headroom, held], freed) => ({
      freed,
      grants: wordsOf(grants, cords),
      caps: wordsOf(caps, demands.length),
      headroom: wordsOf(headroom, cords),
      held: wordsOf(held, cords),
    }));
}

/// The module's calls, from the bytes of its file.
export async function load(bytes) {
  const { instance } = await WebAssembly.instantiate(bytes, {});
  return callsOf(instance);
}
