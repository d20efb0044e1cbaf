// Draws the record as waveforms: a lane for each input that changed, blocks, lost polls and gap marks above them.

import { withCommas } from './dom.js';

const LANE = 22, HEAD = 46, CLOCK = 14, LEFT = 72, HIGH = 4, LOW = 16;
// A lane with more than a transition in three pixels is drawn as density, in bars of four.
const DENSE = 3, BAR = 4;
// The pixels of a letter, and the letters of a clock.
const AXIS_LETTER = 7.5, CLOCK_LETTERS = 12;

// The first index at which a sorted list has at least a value.
export function lowerBound(sorted, value, valueOf = (it) => it) {
  let low = 0, high = sorted.length;
  while (low < high) {
    const middle = (low + high) >> 1;
    if (valueOf(sorted[middle]) < value) low = middle + 1;
    else high = middle;
  }
  return low;
}

// The first index of a list of marks or transitions at a time or later.
export const firstFrom = (marks, time) => lowerBound(marks, time, (it) => it.time);

// A step of the axis, 1, 2 or 5 of a power of ten, of which at most `most` are seen.
function stepOf(span, most) {
  const power = 10 ** Math.floor(Math.log10(Math.max(span / most, 1)));
  return [1, 2, 5, 10].map((factor) => factor * power).find((step) => span / step <= most) || power * 10;
}

// A stretch of time in words.
const timeWords = (ms) => ms < 10 ? `${Number(ms.toPrecision(2))} ms` : ms < 10_000 ? `${Math.round(ms)} ms` : `${Math.round(ms / 1000)} s`;

export class Waves {
  // The axis and what stands between lanes are drawn on `head`, which stays in view; the lanes on `canvas`.
  constructor(head, canvas) {
    Object.assign(this, { head, canvas, lanes: [], selected: { lane: 0, index: -1 } });
  }

  open(record) {
    this.record = record;
    this.lanes = [...record.lanes].sort(([one], [other]) => one - other).map(([input, items]) => ({ input, items }));
    this.rows = new Map(this.lanes.map(({ input }, row) => [input, row]));
    this.first = Math.min(...this.lanes.map(({ items }) => items[0].time), record.blocks[0]?.time ?? 0);
    this.last = record.blocks.at(-1)?.time ?? 1;
    this.selected = { lane: 0, index: -1 };
    this.hasClock = record.clockAt(this.last) !== '';
    this.low = HEAD + (this.hasClock ? CLOCK : 0);
    this.head.style.height = this.low + 'px';
    this.canvas.style.height = this.lanes.length * LANE + 8 + 'px';
    this.fit();
  }

  fit() {
    const margin = Math.max((this.last - this.first) * 0.02, 1);
    this.setRange(Math.max(this.first - margin, 0), this.last + margin);
  }

  // Shows the times between two, within the record and some room around it.
  setRange(from, to) {
    const whole = Math.max(this.last - this.first, 1);
    const span = Math.min(Math.max(to - from, 4), whole * 1.5 + 10);
    // The counter has no time below 0.
    this.from = Math.max(Math.min(Math.max(from, this.first - span * 0.5), this.last - span * 0.5), 0);
    this.to = this.from + span;
  }

  zoom(factor, at = (this.from + this.to) / 2) {
    this.setRange(at - (at - this.from) * factor, at + (this.to - at) * factor);
  }

  pan(share) {
    const by = (this.to - this.from) * share;
    this.setRange(this.from + by, this.to + by);
  }

  get width() {
    return this.canvas.clientWidth;
  }

  xOf(time) {
    return LEFT + (time - this.from) / (this.to - this.from) * (this.width - LEFT);
  }

  timeAt(x) {
    return this.from + (x - LEFT) / (this.width - LEFT) * (this.to - this.from);
  }

  isSeen(x) {
    return x >= LEFT && x <= this.width;
  }

  draw() {
    const style = getComputedStyle(this.canvas), { record } = this;
    this.colour = (name) => style.getPropertyValue('--' + name).trim();
    const head = this.begun(this.head), paint = this.begun(this.canvas);
    this.drawNames(head, paint);
    for (const it of [head, paint]) {
      it.beginPath();
      it.rect(LEFT, 0, this.width - LEFT, it.canvas.clientHeight);
      it.clip();
    }
    this.drawAxis(head, paint);
    this.drawSeams(head, paint);
    this.drawLanes(paint);
    head.fillStyle = this.colour('soft');
    for (const x of this.placesOf(record.blocks, 2)) head.fillRect(x, this.low - 17, 1, 10);
    this.drawSigns(head, record.lostPolls, 'warn', '×');
    this.drawSigns(head, record.skips, 'bad', '↷');
    this.drawSigns(head, record.restarts, 'warn', '↻');
    this.drawItems(paint);
  }

  // A canvas of as many pixels as the screen has there, empty.
  begun(canvas) {
    const ratio = window.devicePixelRatio || 1;
    canvas.width = Math.max(1, Math.round(canvas.clientWidth * ratio));
    canvas.height = Math.max(1, Math.round(canvas.clientHeight * ratio));
    const paint = canvas.getContext('2d');
    paint.setTransform(ratio, 0, 0, ratio, 0, 0);
    paint.font = '12px ui-monospace, "DejaVu Sans Mono", Consolas, monospace';
    return paint;
  }

  drawNames(head, paint) {
    head.textAlign = paint.textAlign = 'right';
    head.fillStyle = this.colour('soft');
    head.fillText('ms', LEFT - 8, 11);
    if (this.hasClock) head.fillText('clock', LEFT - 8, 11 + CLOCK);
    head.fillText('blocks', LEFT - 8, this.low - 8);
    this.lanes.forEach(({ input }, row) => {
      paint.fillStyle = this.colour(row % 2 === 0 ? 'lane' : 'panel');
      paint.fillRect(0, row * LANE, this.width, LANE);
      paint.fillStyle = this.colour('ink');
      paint.fillText('input ' + input, LEFT - 8, row * LANE + LOW - 1);
    });
  }

  // The times, and the log's clock below them.
  drawAxis(head, paint) {
    const letters = Math.max(withCommas(Math.round(this.to)).length, this.hasClock ? CLOCK_LETTERS : 0), label = letters * AXIS_LETTER + 14;
    const step = stepOf(this.to - this.from, Math.max(2, Math.min(10, Math.floor((this.width - LEFT) / label))));
    head.textAlign = 'left';
    for (let time = Math.max(0, Math.ceil(this.from / step) * step); time <= this.to; time += step) {
      const x = this.xOf(time);
      head.fillStyle = paint.fillStyle = this.colour('line');
      head.fillRect(x, 14, 1, this.low);
      paint.fillRect(x, 0, 1, this.canvas.clientHeight);
      head.fillStyle = this.colour('soft');
      if (x + label >= this.width + 14) continue;
      head.fillText(withCommas(time), x + 3, 11);
      if (this.hasClock) head.fillText(this.record.clockAt(time), x + 3, 11 + CLOCK);
    }
  }

  // Where a seam begins, and its width.
  bandOf({ from, to }) {
    const x = this.xOf(from);
    return [x, Math.max(this.xOf(to) - x, 3)];
  }

  // The latest seam at a point; undefined if there is none.
  seamAt(at) {
    return this.record.seams.findLast((seam) => {
      const [x, width] = this.bandOf(seam);
      return at >= x && at <= x + width;
    });
  }

  // A seam is a band over all lanes: transitions are lost in it, or may be missing.
  drawSeams(head, paint) {
    paint.setLineDash([3, 3]);
    for (const seam of this.record.seams) {
      const [x, width] = this.bandOf(seam), colour = seam.is_lost ? 'bad' : 'warn';
      if (x + width < LEFT || x > this.width) continue;
      paint.fillStyle = this.colour(`${colour}-back`);
      paint.strokeStyle = head.fillStyle = this.colour(colour);
      paint.fillRect(x, 0, width, this.canvas.clientHeight);
      paint.strokeRect(x + 0.5, -1, width, this.canvas.clientHeight + 2);
      head.fillRect(x, this.low - 4, width, 4);
    }
    paint.setLineDash([]);
  }

  // How many transitions of a lane are in each bar of the range that is seen; null if they are few enough to be drawn each.
  barsOf({ items }) {
    const first = firstFrom(items, this.from), end = firstFrom(items, this.to), width = Math.max(this.width - LEFT, 1);
    if ((end - first) * DENSE <= width) return null;
    const bars = new Uint32Array(Math.ceil(width / BAR));
    for (let index = first; index < end; index++) bars[Math.floor((this.xOf(items[index].time) - LEFT) / BAR)] += 1;
    return bars;
  }

  // Draws each lane: those with many transitions as density, all to one scale.
  drawLanes(paint) {
    const all = this.lanes.map((lane) => this.barsOf(lane));
    this.densest = all.reduce((most, bars) => bars ? bars.reduce((one, other) => Math.max(one, other), most) : most, 0);
    this.bucket = timeWords((this.to - this.from) * BAR / Math.max(this.width - LEFT, 1));
    paint.strokeStyle = paint.fillStyle = this.colour('accent');
    this.lanes.forEach((lane, row) => all[row] ? this.drawBars(paint, all[row], row * LANE) : this.drawLane(paint, lane.items, row * LANE));
  }

  // The higher a bar, the more transitions there are in its time.
  drawBars(paint, bars, y) {
    bars.forEach((count, place) => {
      const height = count > 0 ? Math.max(1, Math.round(count / this.densest * (LOW - HIGH + 2))) : 0;
      paint.fillRect(LEFT + place * BAR, y + LOW + 2 - height, BAR - 1, height);
    });
  }

  // The state of an input over time; transitions within a pixel are one block. Before its first transition it is unknown.
  drawLane(paint, items, y) {
    const level = (state) => y + (state ? HIGH : LOW) + 0.5;
    let index = Math.max(0, firstFrom(items, this.from) - 1), x = this.xOf(items[index].time), state = 1 - items[index].state;
    paint.lineWidth = 1.5;
    paint.beginPath();
    paint.moveTo(x, level(state));
    for (; index < items.length && items[index].time <= this.to; index++) {
      x = this.xOf(items[index].time);
      paint.lineTo(x, level(state));
      const last = firstFrom(items, this.timeAt(x + 1)) - 1;
      if (last > index) {
        paint.fillRect(x, y + HIGH, 1.5, LOW - HIGH + 1);
        index = last;
      }
      ({ state } = items[index]);
      paint.lineTo(x, level(state));
    }
    paint.lineTo(this.xOf(Math.min(this.last, this.to)), level(state));
    paint.stroke();
  }

  // Where the marks of a list are seen that are at least so many pixels from the one before.
  *placesOf(marks, apart, shift = 0) {
    let drawn = -Infinity;
    for (const { time } of marks) {
      const x = this.xOf(time) + shift;
      if (!this.isSeen(x) || x - drawn < apart) continue;
      yield x;
      drawn = x;
    }
  }

  // A sign for each poll of a list, behind the block above it.
  drawSigns(head, marks, colour, sign) {
    head.fillStyle = this.colour(colour);
    head.textAlign = 'center';
    head.font = 'bold 15px sans-serif';
    for (const x of this.placesOf(marks, 8, 7)) head.fillText(sign, x, this.low - 7);
  }

  // A sign at each transition that breaks a rule on content, and at the one that is selected.
  drawItems(paint) {
    paint.fillStyle = this.colour('bad');
    paint.textAlign = 'center';
    for (const { time, input } of this.record.broken) {
      const x = this.xOf(time);
      if (this.isSeen(x)) paint.fillText('◆', x, this.rows.get(input) * LANE + LOW - 1);
    }
    if (!this.selectedItem) return;
    paint.fillStyle = this.colour('ink');
    paint.beginPath();
    paint.arc(this.xOf(this.selectedItem.time), this.selected.lane * LANE + (HIGH + LOW) / 2, 4, 0, 7);
    paint.fill();
  }

  get selectedItem() {
    return this.lanes[this.selected.lane]?.items[this.selected.index];
  }

  // The transition nearest to a point, or null: its lane's row and its index there.
  nearest(x, y) {
    const row = Math.floor(y / LANE), items = this.lanes[row]?.items, time = this.timeAt(x);
    if (!items) return null;
    const right = Math.min(firstFrom(items, time), items.length - 1), left = Math.max(right - 1, 0);
    return { lane: row, index: Math.abs(items[left].time - time) < Math.abs(items[right].time - time) ? left : right };
  }

  // The waveforms as they are seen, as a picture: a canvas.
  picture() {
    const { head, canvas } = this, whole = document.createElement('canvas');
    Object.assign(whole, { width: canvas.width, height: head.height + canvas.height });
    const paint = whole.getContext('2d');
    paint.fillStyle = this.colour('panel');
    paint.fillRect(0, 0, whole.width, whole.height);
    paint.drawImage(head, 0, 0);
    paint.drawImage(canvas, 0, head.height);
    return whole;
  }
}
