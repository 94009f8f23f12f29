// The rows of the picture: breakers as a tree, each followed by its child breakers and then its own cords.

/// For each node, the places of its child nodes and of the cords on it; the roots stand at 0.
function childrenOf(hut, cords) {
  const children = Array.from({ length: hut.nodes.length + 1 }, () => []);
  hut.nodes.forEach(({ parent }, place) => children[parent].push({ kind: 'node', place }));
  cords.forEach(({ node }, place) => children[node].push({ kind: 'cord', place }));
  return children;
}

const matches = (name, wanted) => name.toLowerCase().includes(wanted);

/// Which rows a search, or the wish for held ones alone, leaves: these with all nodes above them.
function keptBy(hut, cords, { search, onlyHeld, held }) {
  const wanted = search.trim().toLowerCase();
  if (!wanted && !onlyHeld) return null;
  const kept = { node: new Set(), cord: new Set() };
  const keepUp = number => {
    for (let at = number; at > 0 && !kept.node.has(at - 1); at = hut.nodes[at - 1].parent) kept.node.add(at - 1);
  };
  const holders = new Set(held);
  hut.nodes.forEach(({ name }, place) => {
    if (matches(name, wanted) && (!onlyHeld || holders.has(place + 1))) keepUp(place + 1);
  });
  cords.forEach(({ node, server }, place) => {
    if (!matches(hut.servers[server].name, wanted) || (onlyHeld && !held[place])) return;
    kept.cord.add(place);
    keepUp(node);
  });
  return kept;
}

/// The rows in order, each { kind, place, depth, trunks, last, foldable, open }: trunks tells for every
/// depth above whether a line goes on down there.
export function rowsOf(hut, cords, view) {
  const children = childrenOf(hut, cords);
  const kept = keptBy(hut, cords, view);
  const rows = [];
  const walk = (number, depth, trunks) => {
    const shown = children[number].filter(({ kind, place }) => !kept || kept[kind].has(place));
    shown.forEach(({ kind, place }, index) => {
      const last = index === shown.length - 1;
      const foldable = kind === 'node' && children[place + 1].length > 0;
      const open = foldable && (kept !== null || !view.folded.has(hut.nodes[place].name));
      rows.push({ kind, place, depth, trunks, last, foldable, open });
      if (open) walk(place + 1, depth + 1, [...trunks, !last]);
    });
  };
  walk(0, 0, []);
  return rows;
}
