// What the tests of the modules share: the proved calls, files of the repository, the random huts.

import { readFileSync } from 'node:fs';
import { load } from '../src/calls.js';

const at = path => new URL(`../../${path}`, import.meta.url);

export const bytes = path => new Uint8Array(readFileSync(at(path)));
export const text = path => readFileSync(at(path), 'utf8');
export const calls = await load(bytes('target/chips/wasm32/hutplan.wasm'));

/// The table of refusals by number.
export const refusals = Object.fromEntries(JSON.parse(text('docs/refusals.json')).map(each => [each.number, each]));

/// Huts with demands and the reference implementation's prints.
export const huts = text('target/desk/huts.jsonl').trim().split('\n').map(line => JSON.parse(line))
  .map(({ sheet, ...rest }) => ({ sheet: Uint8Array.from(Buffer.from(sheet, 'hex')), ...rest }));

/// Room H, as a person would write it.
export const ROOM_H = `# Room H
breaker left   150 W
breaker right  500 W   # the new one

server web  rank 1  from 100 to 400 W
  cord 50% on left
  cord 50% on right
server db   rank 1  from 100 to 400 W
  cord 100% on right
`;
