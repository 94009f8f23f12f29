// The editor: a text area with its lines painted behind it, so that words have colours and marks. Only the
// lines in sight are painted, and a text of thousands of lines stays quick.

import { tokensOf } from './text.js';
import { escaped } from './picture.js';

const KEYWORDS = new Set(['version', 'breaker', 'server', 'cord', 'under', 'rank', 'from', 'to', 'on', 'at', 'w', 'a', 'v']);
const SPARE_LINES = 4;

/// What a word is painted as. The word behind breaker or server is a name, whatever it is.
function paintOf(token, place, all) {
  if (token.kind === 'number' || token.kind === 'percent') return 'count';
  const named = place === 1 && /^(breaker|server)$/i.test(all[0].text);
  return KEYWORDS.has(token.text.toLowerCase()) && !named ? 'keyword' : 'name';
}

/// The class of each character of a line; those inside a mark have `marked` besides.
function classesOf(content, line, marks) {
  const length = Math.max(content.length, ...marks.map(mark => mark.to));
  const classes = Array(length).fill('');
  const comment = content.indexOf('#');
  if (comment >= 0) classes.fill('comment', comment);
  tokensOf(content, line).forEach((token, place, all) => {
    classes.fill(paintOf(token, place, all), token.span.from, token.span.to);
  });
  for (const { from, to } of marks) for (let at = from; at < to; at++) classes[at] += ' marked';
  return classes;
}

/// A line as HTML, a piece for each run of one class.
function paintLine(content, line, marks) {
  const classes = classesOf(content, line, marks);
  const wide = content.padEnd(classes.length);
  let html = '';
  for (let at = 0; at < wide.length;) {
    let end = at + 1;
    while (end < wide.length && classes[end] === classes[at]) end += 1;
    html += `<span class="${classes[at]}">${escaped(wide.slice(at, end))}</span>`;
    at = end;
  }
  return html || ' ';
}

/// The editor over its elements: the text area, what is painted behind it, and the numbers of its lines.
export class Editor {
  constructor({ area, paint, lines }) {
    Object.assign(this, { area, paint, lines, rows: [''], marks: [], lit: -1 });
    // Noted when they change, so that painting does not make the browser lay the page out.
    Object.assign(this, { lineHeight: 20, height: 300, top: 0, left: 0 });
    area.addEventListener('scroll', () => {
      Object.assign(this, { top: area.scrollTop, left: area.scrollLeft });
      this.repaint();
    });
    new ResizeObserver(() => {
      this.lineHeight = parseFloat(getComputedStyle(area).lineHeight);
      this.height = area.clientHeight;
      this.repaint();
    }).observe(area);
  }

  repaint() {
    const first = Math.max(0, Math.floor(this.top / this.lineHeight) - SPARE_LINES);
    const count = Math.ceil(this.height / this.lineHeight) + 2 * SPARE_LINES;
    const shown = this.rows.slice(first, first + count).map((content, index) => {
      const line = first + index;
      return { content, line, marks: this.marks.filter(mark => mark.line === line) };
    });
    this.paint.innerHTML = shown.map(({ content, line, marks }) => {
      const kind = `painted${marks.length ? ' wrong' : ''}${line === this.lit ? ' lit' : ''}`;
      return `<div class="${kind}">${paintLine(content, line, marks)}</div>`;
    }).join('');
    this.lines.innerHTML = shown.map(({ line, marks }) => `<div class="${marks.length ? 'wrong' : ''}">${line + 1}</div>`).join('');
    const y = first * this.lineHeight - this.top;
    this.paint.style.transform = `translate(${-this.left}px, ${y}px)`;
    this.lines.style.transform = `translateY(${y}px)`;
  }

  /// Takes the text as it stands, with spans to mark.
  refresh(marks) {
    this.rows = this.area.value.split('\n');
    this.marks = marks;
    this.repaint();
  }

  /// Lights a line softly.
  light(line) {
    this.lit = line;
    this.repaint();
  }

  /// Brings a line into sight.
  reveal(line) {
    const top = line * this.lineHeight;
    const seen = top >= this.top && top + 2 * this.lineHeight <= this.top + this.height;
    if (!seen) this.area.scrollTop = Math.max(0, top - this.height / 3);
    this.repaint();
  }

  /// Takes the focus, with a span of the text selected.
  choose({ line, from, to }) {
    const start = this.rows.slice(0, line).reduce((sum, row) => sum + row.length + 1, 0);
    this.area.focus();
    this.area.setSelectionRange(start + from, start + Math.min(to, this.rows[line].length));
    this.reveal(line);
  }

  get caretLine() { return this.area.value.slice(0, this.area.selectionStart).split('\n').length - 1; }
}
