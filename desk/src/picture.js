// The picture of a hut as SVG: a row for each breaker and cord, drawn as a one-line diagram, with a bar
// against its limit.
//
// State is never told by colour alone: a breaker that holds cords has a heavy end and says so, a held cord
// is a full diamond, one whose server could use no more by its other cords a half circle.

import { figure, watts } from './words.js';

export const escaped = text => String(text).replace(/[&<>"]/g, mark => `&#${mark.charCodeAt(0)};`);

const INDENT = 17;
const MOST_INDENTS = 10;
const MARGIN = 14;
const LETTER = 7.2;
const DIGIT = 6.5;
const NARROW = 520;
const LEAST_BAR = 40;

const xOf = depth => MARGIN + Math.min(depth, MOST_INDENTS) * INDENT;

/// The width that a row's sign and name take, with the small figure behind the name.
export const labelWidth = (depth, name) => xOf(depth) + 13 + name.length * LETTER + 40;

/// The width that a breaker's figures take, granted of its limit.
export const figuresWidth = limit => (2 * figure(limit).length + 5) * DIGIT;

/// Where things stand in a row of a picture of this width, whose labels and figures are so wide at most. A
/// narrow picture has its bars on a second line of the row.
export function geometryOf(width, labels, figures) {
  if (width < NARROW) {
    const [bar, end] = [MARGIN + 24, width - MARGIN];
    const barWidth = Math.max(LEAST_BAR, end - figures - bar);
    return { width, narrow: true, row: 48, nameY: 16, barY: 36, label: width - 90, bar, barWidth, figureX: end, noteX: end };
  }
  const noteX = width - 116;
  const label = Math.max(120, Math.min(width * 0.4, labels));
  const barWidth = Math.max(LEAST_BAR, noteX - 10 - figures - label);
  return { width, narrow: false, row: 30, nameY: 15, barY: 15, label, bar: label, barWidth, figureX: noteX - 10, noteX };
}

const text = (kind, x, y, content, anchor = 'start') =>
  `<text class="${kind}" x="${x}" y="${y + 4.5}" text-anchor="${anchor}">${content}</text>`;

const clipped = (content, space) => {
  const most = Math.max(3, Math.floor(space / LETTER));
  return content.length > most ? `${content.slice(0, most - 1)}…` : content;
};

// ---- The parts of a row

/// The lines that lead to a row from the rows above it.
function wires(row, { nameY, row: height }) {
  const down = row.trunks.slice(1).map((goesOn, depth) => (goesOn ? `M${xOf(depth)} 0V${height}` : ''));
  if (row.depth > 0) {
    const x = xOf(row.depth - 1);
    down.push(`M${x} 0V${row.last ? nameY : height}M${x} ${nameY}H${xOf(row.depth) - 5}`);
  }
  if (row.open) down.push(`M${xOf(row.depth)} ${nameY + 5}V${height}`);
  return `<path class="wire" d="${down.join('')}"/>`;
}

/// A breaker's square, with a minus or plus where it can be folded.
function breakerSign(x, y, row, holds) {
  const state = holds ? ' holds' : '';
  const sign = row.foldable ? `M${x - 2.5} ${y}h5${row.open ? '' : `M${x} ${y - 2.5}v5`}` : '';
  return `<rect class="sign${state}" x="${x - 5.5}" y="${y - 5.5}" width="11" height="11" rx="1.5"/>
    <path class="fold${state}" d="${sign}"/>`;
}

function cordSign(x, y, state) {
  if (state === 'held') return `<path class="plug held" d="M${x} ${y - 5.5}l5.5 5.5l-5.5 5.5l-5.5 -5.5z"/>`;
  const half = state === 'stranded' ? `<path class="half" d="M${x} ${y - 4}a4 4 0 0 1 0 8z"/>` : '';
  return `<circle class="plug" cx="${x}" cy="${y}" r="4"/>${half}`;
}

/// A bar whose whole width is `most` watts.
function barOf(geometry, height, most, { granted, lent, low, want = 0, state = '' }) {
  const y = geometry.barY - height / 2;
  const x = part => geometry.bar + (most > 0 ? Math.min(part / most, 1) * geometry.barWidth : 0);
  const rect = (kind, from, to) => (to > from
    ? `<rect class="${kind}" x="${x(from)}" y="${y}" width="${Math.max(x(to) - x(from), 0)}" height="${height}"/>` : '');
  const tick = low > 0 ? `<path class="tick" d="M${x(low)} ${y - 2}v${height + 4}"/>` : '';
  const track = `<rect class="track" x="${geometry.bar}" y="${y}" width="${geometry.barWidth}" height="${height}"/>`;
  return track + rect(`want ${state}`, granted, want) + rect('granted', 0, granted)
    + rect('lent', granted, granted + lent) + tick;
}

/// A name with something small behind it.
const nameOf = (kind, geometry, depth, name, behind) => {
  const x = xOf(depth);
  const small = behind ? `<tspan class="number" dx="6">${behind}</tspan>` : '';
  return text(kind, x + 13, geometry.nameY, `${escaped(clipped(name, geometry.label - x - 44))}${small}`);
};

/// The note at a row's end; in a narrow picture at the end of its first line.
const noteOf = (geometry, state, content) => (content
  ? text(`note ${state}`, geometry.noteX, geometry.nameY, escaped(content), geometry.narrow ? 'end' : 'start') : '');

// ---- Rows

function nodeRow(row, geometry, { hut, figures, holds }) {
  const { place, depth } = row;
  const [limit, granted] = [figures.limits[place], figures.grantsBeneath[place]];
  const held = holds.get(place + 1) ?? 0;
  const end = `<path class="limit${held ? ' holds' : ''}" d="M${geometry.bar + geometry.barWidth} ${geometry.barY - 9}v18"/>`;
  return breakerSign(xOf(depth), geometry.nameY, row, held > 0)
    + nameOf('name', geometry, depth, hut.nodes[place].name, place + 1)
    + barOf(geometry, 12, limit, { granted, lent: figures.headroomBeneath[place], low: figures.lowsBeneath[place] })
    + end
    + text('figure', geometry.figureX, geometry.barY, `${figure(granted)}<tspan class="of"> of ${figure(limit)}</tspan>`, 'end')
    + noteOf(geometry, 'held', held ? `◆ holds ${held}` : '');
}

/// held, stranded or met.
export function cordState(figures, place) {
  if (figures.held[place] > 0) return 'held';
  return figures.grants[place] < figures.wants[place] ? 'stranded' : 'met';
}

function cordNote(hut, figures, place, state, geometry) {
  if (state === 'held') return `held by ${clipped(hut.nodes[figures.held[place] - 1].name, geometry.narrow ? 90 : 62)}`;
  if (figures.headroom[place] > 0) return `+${figure(figures.headroom[place])} lent`;
  return state === 'stranded' ? 'rest freed' : '';
}

function cordRow({ place, depth }, geometry, { hut, figures, cords }) {
  const cord = cords[place];
  const server = hut.servers[cord.server];
  const state = cordState(figures, place);
  const which = server.cords.length > 1 ? `${cord.cord + 1}/${server.cords.length}` : '';
  const watt = { granted: figures.grants[place], lent: figures.headroom[place], low: figures.lows[place], want: figures.wants[place] };
  return cordSign(xOf(depth), geometry.nameY, state)
    + nameOf('server', geometry, depth, server.name, which)
    + barOf(geometry, 8, figures.limits[cord.node - 1], { ...watt, state })
    + text('figure', geometry.figureX, geometry.barY, figure(watt.granted), 'end')
    + noteOf(geometry, state, cordNote(hut, figures, place, state, geometry));
}

/// What a row says to a screen reader.
function rowLabel({ kind, place }, { hut, figures, cords, holds }) {
  if (kind === 'node') {
    const held = holds.get(place + 1) ?? 0;
    const says = [`Breaker ${hut.nodes[place].name}`, `limit ${watts(figures.limits[place])}`,
      `lows ${watts(figures.lowsBeneath[place])}`, `granted ${watts(figures.grantsBeneath[place])}`,
      `lent ${watts(figures.headroomBeneath[place])}`];
    return [...says, ...(held ? [`holds ${held} cords`] : [])].join(', ');
  }
  const { server, cord } = cords[place];
  const holder = figures.held[place];
  const says = [`Cord ${cord + 1} of server ${hut.servers[server].name}`,
    `granted ${watts(figures.grants[place])} of ${watts(figures.wants[place])} wanted`,
    `headroom ${watts(figures.headroom[place])}`];
  return [...says, ...(holder ? [`held by ${hut.nodes[holder - 1].name}`] : [])].join(', ');
}

/// One row as SVG, at its height.
export function rowSvg(row, index, geometry, scene, selected) {
  const draw = row.kind === 'node' ? nodeRow : cordRow;
  const open = row.foldable ? ` aria-expanded="${row.open}"` : '';
  const tree = `role="treeitem" aria-level="${row.depth + 1}" aria-selected="${selected}"${open}`;
  return `<g id="row-${index}" data-row="${index}" class="line${selected ? ' selected' : ''}" ${tree}
    aria-label="${escaped(rowLabel(row, scene))}" transform="translate(0 ${index * geometry.row})">
    <rect class="ground" width="${geometry.width}" height="${geometry.row}"/>
    ${wires(row, geometry)}${draw(row, geometry, scene)}</g>`;
}

/// The hatching of lent watts, once in a drawing.
export const patterns = id => `<defs><pattern id="${id}" width="5" height="5" patternUnits="userSpaceOnUse"
  patternTransform="rotate(45)"><rect class="hatch-ground" width="5" height="5"/><path class="hatch-line" d="M0 0V5"/></pattern></defs>`;

/// How many cords each node holds, by its number.
export function holdsOf(held) {
  const holds = new Map();
  for (const node of held) if (node > 0) holds.set(node, (holds.get(node) ?? 0) + 1);
  return holds;
}
