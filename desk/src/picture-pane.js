// The picture in its pane: only the rows in sight are drawn, and the keyboard moves through all of them.

import { geometryOf, labelWidth, figuresWidth, rowSvg, patterns, holdsOf } from './picture.js';
import { rowsOf } from './rows.js';

const SPARE_ROWS = 6;
const LEAST_WIDTH = 300;
const PAGE_ROWS = 10;
const PAPER_ROWS = 8;
const same = (row, chosen) => row.kind === chosen?.kind && row.place === chosen?.place;

/// Everything that drawing a row needs.
export const sceneOf = (hut, cords, figures) => ({ hut, cords, figures, holds: holdsOf(figures.held) });

/// How wide the labels and the figures of these rows are at most.
function widthsOf(rows, { hut, cords, figures }) {
  const labels = rows.reduce((most, { kind, place, depth }) => {
    const { name } = kind === 'node' ? hut.nodes[place] : hut.servers[cords[place].server];
    return Math.max(most, labelWidth(depth, name));
  }, 0);
  return [labels, figuresWidth(Math.max(...figures.limits))];
}

/// A drawing of some rows, for paper.
function paperDrawing(rows, geometry, scene) {
  // The rows of the page have the same ids.
  const lines = rows.map((row, index) => rowSvg(row, index, geometry, scene, false).replace(/ id="row-\d+"/, ''));
  return `<svg class="drawing" xmlns="http://www.w3.org/2000/svg"
    viewBox="0 0 ${geometry.width} ${rows.length * geometry.row}">${patterns('hatch-on-paper')}${lines.join('')}</svg>`;
}

/// The whole picture for paper, in drawings that a page can hold, so that no row is cut in two.
export function wholePicture(scene, width) {
  const view = { folded: new Set(), search: '', onlyHeld: false, held: scene.figures.held };
  const rows = rowsOf(scene.hut, scene.cords, view);
  const geometry = geometryOf(width, ...widthsOf(rows, scene));
  const drawings = [];
  for (let first = 0; first < rows.length; first += PAPER_ROWS) {
    drawings.push(paperDrawing(rows.slice(first, first + PAPER_ROWS), geometry, scene));
  }
  return drawings.join('');
}

/// The pane over its element. `view` says what is folded and searched; `chosen` is told of the row that a
/// person chooses.
export class PicturePane {
  constructor(pane, view, chosen) {
    Object.assign(this, { pane, view, chosen, scene: null, rows: [], widths: [0, 0], active: 0, selected: null });
    this.space = pane.querySelector('.space');
    this.svg = pane.querySelector('svg');
    this.none = pane.querySelector('.none');
    // Sizes are noted when they change: asking the browser for them while the page is being changed would
    // make it lay the page out each time.
    Object.assign(this, { width: LEAST_WIDTH, height: LEAST_WIDTH, top: 0 });
    this.listen();
  }

  listen() {
    const { pane } = this;
    pane.addEventListener('keydown', event => this.key(event));
    pane.addEventListener('click', event => this.click(event));
    pane.addEventListener('scroll', () => {
      this.top = pane.scrollTop;
      this.draw();
    });
    new ResizeObserver(() => {
      this.width = Math.max(LEAST_WIDTH, pane.clientWidth);
      this.height = pane.clientHeight;
      this.draw();
    }).observe(pane);
  }

  get geometry() { return geometryOf(this.width, ...this.widths); }

  /// Shows a hut with its plan.
  show(scene) {
    this.scene = scene;
    this.layOut();
  }

  /// Finds the rows anew, by what is folded and searched.
  layOut() {
    const { scene, view } = this;
    this.rows = scene ? rowsOf(scene.hut, scene.cords, { ...view, held: scene.figures.held }) : [];
    if (scene) this.widths = widthsOf(this.rows, scene);
    this.active = Math.max(0, this.rows.findIndex(row => same(row, this.selected)));
    this.none.hidden = !scene || this.rows.length > 0;
    this.none.textContent = view.onlyHeld && !view.search ? 'No cord is held.' : 'Nothing here has that name.';
    this.draw();
  }

  draw() {
    const { rows, geometry, scene } = this;
    const all = rows.length * geometry.row;
    const top = Math.min(this.top, Math.max(0, all - this.height));
    const first = Math.max(0, Math.floor(top / geometry.row) - SPARE_ROWS);
    const last = Math.min(rows.length, first + Math.ceil(this.height / geometry.row) + 2 * SPARE_ROWS);
    this.space.style.height = `${all}px`;
    this.svg.setAttribute('width', geometry.width);
    this.svg.setAttribute('height', all);
    this.svg.innerHTML = patterns('hatch') + rows.slice(first, last)
      .map((row, index) => rowSvg(row, first + index, geometry, scene, same(row, this.selected))).join('');
    if (rows.length > 0) this.pane.setAttribute('aria-activedescendant', `row-${this.active}`);
    else this.pane.removeAttribute('aria-activedescendant');
  }

  /// Scrolls as far as a row needs to be seen.
  reveal(index) {
    const { row } = this.geometry;
    if (index * row < this.top) this.top = index * row;
    else if ((index + 1) * row > this.top + this.height) this.top = (index + 1) * row - this.height;
    else return;
    this.pane.scrollTop = this.top;
  }

  /// A person chooses a row.
  choose(index, by) {
    const row = this.rows[Math.min(Math.max(index, 0), this.rows.length - 1)];
    if (!row) return;
    this.select({ kind: row.kind, place: row.place });
    this.chosen(this.selected, by);
  }

  /// Marks a row as chosen, and brings it into sight; with null, none.
  select(what) {
    this.selected = what;
    const index = this.rows.findIndex(row => same(row, what));
    if (index >= 0) {
      this.active = index;
      this.reveal(index);
    }
    this.draw();
  }

  fold(index, open) {
    const row = this.rows[index];
    if (!row?.foldable || row.open === open) return;
    const { name } = this.scene.hut.nodes[row.place];
    if (open) this.view.folded.delete(name);
    else this.view.folded.add(name);
    this.layOut();
  }

  /// The row of the breaker above a row; the row itself if there is none.
  parentOf(index) {
    const { depth } = this.rows[index];
    for (let above = index - 1; above >= 0; above--) if (this.rows[above].depth < depth) return above;
    return index;
  }

  key(event) {
    if (event.ctrlKey || event.metaKey || event.altKey || this.rows.length === 0) return;
    const at = this.active;
    const row = this.rows[at];
    const keys = {
      ArrowDown: () => this.choose(at + 1),
      ArrowUp: () => this.choose(at - 1),
      PageDown: () => this.choose(at + PAGE_ROWS),
      PageUp: () => this.choose(at - PAGE_ROWS),
      Home: () => this.choose(0),
      End: () => this.choose(this.rows.length - 1),
      ArrowRight: () => (row.foldable && !row.open ? this.fold(at, true) : this.choose(at + 1)),
      ArrowLeft: () => (row.open ? this.fold(at, false) : this.choose(this.parentOf(at))),
      Enter: () => this.choose(at, 'enter'),
      ' ': () => this.fold(at, !row.open),
    };
    if (!keys[event.key]) return;
    event.preventDefault();
    keys[event.key]();
  }

  click(event) {
    const line = event.target.closest('[data-row]');
    if (!line) return;
    const index = Number(line.dataset.row);
    if (event.target.closest('.sign, .fold')) this.fold(index, !this.rows[index].open);
    this.choose(index);
  }
}
