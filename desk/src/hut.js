// A hut as data, and the words of its table.
//
// A hut is { version, nodes, servers }. A node is { name, parent, rating, percent }, a server
// { name, rank, least, greatest, cords }, a cord { node, share }. Parents and the nodes of cords are
// numbers from 1, and 0 is none, as in the table. Nothing here judges a figure: Read, Write and Plan do.

export const FULL_PERCENT = 100;
export const USUAL_PERCENT = 80;
/// The greatest word of a table. A greater number counts as this one, which every range refuses.
export const MOST_WORD = 4294967295;
export const MOST_WATTS = 16777215;
export const MOST_NODES = 512;
export const MOST_SERVERS = 512;

/// From version 2 on a node has a third word, its percent.
export const hasPercents = version => version >= 2;

/// The parts of a server's load by which its shares are counted.
export const scaleOf = version => (version >= 3 ? 10000 : 1000);

/// The words of a hut's table, and for each what it stands for, as { kind, node, server, cord }: places
/// from 0 of the things that it belongs to.
export function tableOf(hut) {
  const words = [];
  const parts = [];
  const put = (word, kind, of = {}) => {
    words.push(word);
    parts.push({ kind, ...of });
  };
  put(hut.version, 'version');
  put(hut.nodes.length, 'count of nodes');
  hut.nodes.forEach((entry, node) => {
    put(entry.parent, 'parent', { node });
    put(entry.rating, 'rating', { node });
    if (hasPercents(hut.version)) put(entry.percent, 'percent', { node });
  });
  put(hut.servers.length, 'count of servers');
  hut.servers.forEach((entry, server) => {
    put(entry.rank, 'rank', { server });
    put(entry.least, 'least', { server });
    put(entry.greatest, 'greatest', { server });
    put(entry.cords.length, 'count of cords', { server });
    entry.cords.forEach((each, cord) => {
      put(each.node, 'node', { server, cord });
      put(each.share, 'share', { server, cord });
    });
  });
  return { words, parts };
}

/// The hut of a table that was accepted, with names made from the numbers.
export function hutOf(words) {
  let at = 0;
  const next = () => words[at++];
  const version = next();
  const nodes = Array.from({ length: next() }, (_, place) => ({
    name: `b${place + 1}`,
    parent: next(),
    rating: next(),
    percent: hasPercents(version) ? next() : USUAL_PERCENT,
  }));
  const servers = Array.from({ length: next() }, (_, place) => {
    const [rank, least, greatest, count] = [next(), next(), next(), next()];
    const cords = Array.from({ length: count }, () => ({ node: next(), share: next() }));
    return { name: `s${place + 1}`, rank, least, greatest, cords };
  });
  return { version, nodes, servers };
}

/// What the word at a place of a table stands for, where all words before it are good.
export function partAt(words, place) {
  if (place < 2) return { kind: ['version', 'count of nodes'][place] };
  const kinds = ['parent', 'rating', 'percent'].slice(0, hasPercents(words[0]) ? 3 : 2);
  let at = 2 + kinds.length * words[1];
  if (place < at) return { kind: kinds[(place - 2) % kinds.length], node: Math.floor((place - 2) / kinds.length) };
  if (place === at) return { kind: 'count of servers' };
  at += 1;
  for (let server = 0; ; server++) {
    if (place < at + 4) return { kind: ['rank', 'least', 'greatest', 'count of cords'][place - at], server };
    const first = at + 4;
    at = first + 2 * words[at + 3];
    if (place < at) return { kind: ['node', 'share'][(place - first) % 2], server, cord: Math.floor((place - first) / 2) };
  }
}

/// All cords in the table's order, each with its server's place and its place there.
export function cordsOf(hut) {
  return hut.servers.flatMap((entry, server) =>
    entry.cords.map((each, cord) => ({ ...each, server, cord })));
}

/// For each node, the sum of a figure a cord over all cords beneath it, at any depth.
export function sumsBeneath(hut, figures) {
  const sums = hut.nodes.map(() => 0);
  cordsOf(hut).forEach(({ node }, place) => { sums[node - 1] += figures[place]; });
  for (let place = hut.nodes.length - 1; place >= 0; place--) {
    const { parent } = hut.nodes[place];
    if (parent > 0) sums[parent - 1] += sums[place];
  }
  return sums;
}
