// A table of which only the rows in view are drawn, in their order in the document; all of them if they are few. It is moved by
// the wheel, by touch and by the keys of a list. The style says how high a row is: on a narrow screen it is a card.

import { element } from './dom.js';
import { lowerBound } from './waves.js';

// Browsers lay out no box of more than some 17 million pixels: a longer table moves by more than a row a pixel.
const MOST_PIXELS = 8_000_000;
const AROUND = 8;
// Up to this number all rows are drawn, so that the browser's own search and a copy of all find them.
const FEW = 300;
const PRINTED = 500;

export class VirtualTable {
  // `columns` are heads with the widths of a grid and their kinds. `draw(place)` gives the kinds of a row and the texts of
  // its cells; `choose(place, isOpened)` is called when a row is selected, and opened if it was by a tap or a key.
  constructor(label, columns, draw, choose) {
    Object.assign(this, { draw, choose, places: [], selected: -1, drawn: new Map(), height: 0 });
    this.kinds = columns.map(([, , kind]) => kind);
    const heads = columns.map(([head, , kind]) => element('span', { role: 'columnheader', class: kind }, head));
    this.canvas = element('div', { class: 'canvas', role: 'presentation', onclick: (event) => this.click(event) });
    this.heads = element('div', { class: 'heads', role: 'row', 'aria-rowindex': '1' }, ...heads);
    this.rows = element('div', { class: 'rows', tabindex: '0', role: 'grid', 'aria-label': label, onscroll: () => requestAnimationFrame(() => this.update()),
      onkeydown: (event) => this.key(event), oncopy: (event) => this.copy(event) }, this.heads, this.canvas);
    this.root = element('div', { class: 'table' }, this.rows);
    this.root.style.setProperty('--columns', columns.map(([, width]) => width).join(' '));
    new ResizeObserver(() => this.refresh()).observe(this.rows);
    window.addEventListener('beforeprint', () => this.print());
    window.addEventListener('afterprint', () => this.refresh());
  }

  // Shows the rows of these places, from the first.
  show(places) {
    this.places = places;
    this.selected = -1;
    this.rows.setAttribute('aria-rowcount', String(places.length + 1));
    this.rows.scrollTop = 0;
    this.refresh();
  }

  // The pixels of rows that are seen.
  get seen() {
    return Math.max(this.height, this.rows.clientHeight - this.heads.offsetHeight);
  }

  // The index of the row at the top, which may have a part.
  get top() {
    const most = this.pixels - this.seen, last = Math.max(0, this.places.length - this.seen / this.height);
    return most > 0 ? Math.min(1, this.rows.scrollTop / most) * last : 0;
  }

  // Draws all rows in view anew, of the height that the style says. The row at the top stays there.
  refresh() {
    const { top } = this, height = parseFloat(getComputedStyle(this.rows).getPropertyValue('--row')) || 24, isOther = height !== this.height;
    this.put(() => true);
    Object.assign(this, { height, pixels: Math.min(this.places.length * height, MOST_PIXELS) });
    this.canvas.style.height = this.pixels + 'px';
    if (isOther) this.scrollTo(top);
    this.update();
  }

  // Takes rows out of the document.
  put(isOut) {
    for (const [index, row] of this.drawn) {
      if (!isOut(index)) continue;
      row.remove();
      this.drawn.delete(index);
    }
  }

  // What is measured is read first: read between changes, each would make the browser lay all out anew. Rows are put in from
  // below, each before the one that follows it.
  update() {
    const { top, seen, height } = this, { scrollTop } = this.rows, isWhole = this.places.length <= FEW;
    const first = isWhole ? 0 : Math.max(0, Math.floor(top) - AROUND);
    const end = isWhole ? this.places.length : Math.min(this.places.length, Math.ceil(top + seen / height) + AROUND);
    this.put((index) => index < first || index >= end);
    this.draws(first, end, (row, index) => {
      row.style.top = (isWhole ? index * height : scrollTop + (index - top) * height) + 'px';
      row.setAttribute('aria-selected', String(index === this.selected));
    });
    if (this.selected >= 0) this.rows.setAttribute('aria-activedescendant', 'row-' + this.selected);
    else this.rows.removeAttribute('aria-activedescendant');
  }

  // Puts rows from one index to another into the document, and does something with each.
  draws(first, end, act) {
    let next = null;
    for (let index = end - 1; index >= first; index--) {
      next = this.drawn.get(index) || this.add(index, next);
      act(next, index);
    }
  }

  // Puts a row in, above the next one.
  add(index, next) {
    const { kinds, cells } = this.draw(this.places[index]);
    const row = element('div', { role: 'row', id: 'row-' + index, 'aria-rowindex': index + 2, 'data-index': index, class: ['line', ...kinds].join(' ') },
      // What may be cut is whole in a hint.
      ...cells.map((text, place) => element('span', { class: this.kinds[place], role: 'gridcell', title: this.kinds[place] === 'rule' && text }, text)));
    this.canvas.insertBefore(row, next);
    this.drawn.set(index, row);
    return row;
  }

  // Selects a row by its index, and brings it into view.
  select(index, isOpened = false) {
    if (this.places.length === 0) return;
    this.selected = Math.max(0, Math.min(index, this.places.length - 1));
    const seen = Math.floor(this.seen / this.height);
    if (this.selected < Math.ceil(this.top)) this.scrollTo(this.selected);
    else if (this.selected > this.top + seen - 1) this.scrollTo(this.selected - seen + 1);
    this.update();
    this.choose(this.places[this.selected], isOpened);
  }

  // Selects the row of a place, or the nearest one above, and opens it.
  selectPlace(place) {
    this.select(lowerBound(this.places, place + 1) - 1, true);
  }

  scrollTo(index) {
    const last = Math.max(1, this.places.length - this.seen / this.height);
    this.rows.scrollTop = Math.min(1, Math.max(0, index) / last) * (this.pixels - this.seen);
  }

  key(event) {
    const page = Math.max(1, Math.floor(this.seen / this.height) - 1);
    const steps = { ArrowDown: 1, ArrowUp: -1, PageDown: page, PageUp: -page, Home: -Infinity, End: Infinity, Enter: 0 };
    if (!(event.key in steps) || event.ctrlKey || event.metaKey || event.altKey) return;
    event.preventDefault();
    const step = steps[event.key];
    this.select(this.selected < 0 && (step === -1 || step === 0) ? 0 : this.selected + step, step === 0);
  }

  click(event) {
    const row = event.target.closest('.line');
    // Who marks words to copy them opens nothing.
    if (row && (getSelection().isCollapsed || !this.canvas.contains(getSelection().anchorNode))) {
      this.select(Number(row.dataset.index), true);
    }
  }

  // Copies rows as lines, with a tab between cells.
  copy(event) {
    const marked = getSelection();
    const rows = [...this.canvas.children].filter((row) => marked.containsNode(row, true));
    if (rows.length < 2) return;
    const lines = rows.map((row) => [...row.children].map((cell) => cell.textContent).join('\t') + '\n');
    event.clipboardData.setData('text/plain', lines.join(''));
    event.preventDefault();
  }

  // Draws the first rows for the printer, which scrolls nothing.
  print() {
    this.put((index) => index >= PRINTED);
    this.draws(0, Math.min(this.places.length, PRINTED), () => {});
  }
}
