// Puts the page, its style, its modules, the table of refusals and the proved code into one HTML file.
//
//   node desk/bundle.mjs WASM OUT
//
// The modules become one: each follows those that it imports, without its import lines and the word export. So
// two modules cannot have one name for two things; where they do, nothing is made.

import { createHash } from 'node:crypto';
import { readFileSync, writeFileSync } from 'node:fs';

const [wasm, out] = process.argv.slice(2);
const here = path => readFileSync(new URL(path, import.meta.url), 'utf8');
const IMPORT = /^import [^;]*? from '\.\/([\w-]+\.js)';\n/gm;

/// The modules that one imports, and then itself.
function modules(name, seen = new Set()) {
  if (seen.has(name)) return [];
  seen.add(name);
  const source = here(`src/${name}`);
  const below = Array.from(source.matchAll(IMPORT), match => modules(match[1], seen)).flat();
  return [...below, source.replace(IMPORT, '').replace(/^export /gm, '')];
}

/// Stops where a name is declared twice at the outermost level.
function checkNames(sources) {
  const seen = new Set();
  for (const [, name] of sources.join('\n').matchAll(/^(?:const|let|class|(?:async )?function\*?) (\w+|\$)/gm)) {
    if (seen.has(name)) throw new Error(`two modules declare ${name}`);
    seen.add(name);
  }
}

const constants = {
  REFUSAL_TABLE: JSON.parse(here('../docs/refusals.json')),
  SAMPLE_HUTS: JSON.parse(here('samples.json')),
  MODULE: readFileSync(wasm).toString('base64'),
};
const literal = value => JSON.stringify(value).replaceAll('<', '\\u003c');
const sources = [
  ...Object.entries(constants).map(([name, value]) => `const ${name} = ${literal(value)};\n`),
  ...modules('app.js'),
];
checkNames(sources);
const script = sources.join('\n');
if (script.includes('</script')) throw new Error('a module has the end of a script in it');

/// The release's mark, which the page has as text too, since the code stands in it in base64.
const mark = readFileSync(wasm).toString('latin1').match(/hutplan release \d{4} by Yerkozan/)?.[0];
if (!mark) throw new Error('the proved code has no mark of its release');

const hash = createHash('sha256').update(script).digest('base64');
const parts = {
  // Nothing is fetched, and no script but this one runs.
  policy: [`default-src 'none'`, `script-src 'sha256-${hash}' 'wasm-unsafe-eval'`, `style-src 'unsafe-inline'`,
    `form-action 'none'`, `base-uri 'none'`].join('; '),
  mark,
  style: here('style.css'),
  script,
};
const html = here('page.html').replace(/\{\{(\w+)\}\}/g, (_, name) => parts[name]);
writeFileSync(out, html);
console.log(`${out}: ${html.length} characters`);
