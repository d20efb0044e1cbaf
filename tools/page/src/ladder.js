// A run of *Play* as a picture: both ends as lines, time from the top down, each message as an arrow between them.

import { statusNotes } from './rules.js';
import { counted } from './dom.js';

const SPACE = 'http://www.w3.org/2000/svg';
const ROW = 38, TOP = 46, EDGE = 30, LETTER = 6.7;
// The most rows that are drawn: the last ones.
const MOST_ROWS = 60;
// With values for a file of its own, which has no style of the page.
const STYLE = `.lad-text { font: 11px ui-monospace, "DejaVu Sans Mono", Consolas, monospace; fill: var(--ink, #1a1d21); stroke: var(--panel, #ffffff); stroke-width: 4px; paint-order: stroke; }
.lad-note { font: 12px system-ui, sans-serif; fill: var(--soft, #565d66); stroke: var(--panel, #ffffff); stroke-width: 3px; paint-order: stroke; }
.lad-head { font: 600 14px system-ui, sans-serif; fill: var(--ink, #1a1d21); }
.lad-life { stroke: var(--line, #d5d8dc); stroke-width: 3; } .lad-arrow { stroke: var(--accent, #0b57a4); stroke-width: 1.6; fill: none; }
.lad-tip { fill: var(--accent, #0b57a4); stroke: none; } .lad-waiting { stroke-dasharray: 2 4; } .lad-again { stroke-dasharray: 7 4; }
.lad-lost { stroke: var(--bad, #a3201a); stroke-dasharray: 7 4; } .lad-cross { stroke: var(--bad, #a3201a); stroke-width: 2.4; fill: none; }
.lad-text.lad-bad, .lad-note.lad-bad { fill: var(--bad, #a3201a); }`;

// What the CPU does with a message that it heard, by the report's words, and by what that added to the record.
function heardWords(outcome, added) {
  const gaps = added.filter((item) => item.gap).length, changes = added.length - gaps;
  if (outcome.startsWith('refused')) return outcome;
  if (outcome.startsWith('stale')) return 'waits for another block: records nothing';
  if (outcome === 'unreadable') return 'cannot read it';
  return outcome.startsWith('block') ? `records ${gaps > 0 ? 'a gap mark and ' : ''}${changes > 0 ? counted(changes, 'change') : 'no change'}` : '';
}

const ENDINGS = { '': '', again: '', lost: ': lost', waiting: ': on its way' };
const AT_MODULE = { sync: 'line sync', raise: 'a flag is raised', restart: 'the module restarts' };

// Follows a run, event by event: its rows, and the arrows from row to row.
class Ladder {
  constructor(run, lost) {
    Object.assign(this, { run, rows: [], arrows: [], sent: { 'to-module': [], 'to-cpu': [] } });
    run.events.forEach((line, index) => this.follow(line.split(' '), run.lines[index].replace(/^\d+ /, ''), index));
    // A message that never arrived is lost, or on its way.
    for (const [way, { highest }] of [['to-module', run.toModule], ['to-cpu', run.toCpu]]) {
      for (const [place, from] of this.sent[way].entries()) {
        const number = place + 1, isLost = number < highest || lost.has(way + number);
        if (!this.hasArrived(way, number)) this.arrows.push({ way, number, from, to: from + (isLost ? 0.5 : 0.4), kind: isLost ? 'lost' : 'waiting' });
      }
    }
  }

  follow([name, given], outcome, index) {
    const { run } = this, isOfCpu = name === 'poll' || name === 'send', at = this.rows.length;
    if (name === 'scan') return this.scan(run.waits[index]);
    const row = { isAtModule: !isOfCpu && name !== 'to-cpu', note: AT_MODULE[name] || (outcome.startsWith('refused') ? outcome : '') };
    this.rows.push(row);
    if (name.startsWith('to-')) this.arrive(name, Number(given), at, outcome);
    if (outcome.startsWith('sent ')) this.sent[isOfCpu ? 'to-module' : 'to-cpu'].push(at);
    if (name === 'to-cpu') row.note = heardWords(outcome, run.record.slice(run.recorded[index - 1] || 0, run.recorded[index]));
    return undefined;
  }

  // Scans in a row are one row.
  scan(waits) {
    if (!this.rows.at(-1)?.scans) this.rows.push({ isAtModule: true, scans: 0 });
    const row = this.rows.at(-1);
    row.scans += 1;
    row.note = counted(row.scans, 'scan') + (waits > 0 ? `: ${counted(waits, 'change')} ${waits === 1 ? 'waits' : 'wait'}` : '');
  }

  hasArrived(way, number) {
    return this.arrows.some((arrow) => arrow.way === way && arrow.number === number);
  }

  arrive(way, number, row, outcome) {
    const from = this.sent[way][number - 1], isAgain = this.hasArrived(way, number);
    if (outcome.startsWith('refused') || from === undefined) return;
    this.arrows.push({ way, number, from: isAgain ? row - 0.35 : from, to: row, kind: isAgain ? 'again' : '' });
  }
}

function shape(name, attributes, text = '') {
  const made = document.createElementNS(SPACE, name);
  for (const [key, value] of Object.entries(attributes)) made.setAttribute(key, String(value));
  made.textContent = text;
  return made;
}

// The words of a message and what the bits of its status say, in at most `most` letters if that can be.
function labelOf(library, octets, most) {
  const [words] = library.showOctets(octets), message = library.decode(library.place(octets), octets.length);
  const notes = statusNotes(message.code, message.status), [short] = /^\D*\d*/.exec(words);
  const ways = [[words, ...notes], [short, ...notes], [short, ...notes.map((note) => note.split(':')[0])]].map((way) => way.join(', '));
  return ways.find((way) => way.length <= most) || ways[2];
}

class Picture {
  constructor(ladder, width, library) {
    const { rows } = ladder;
    Object.assign(this, { ladder, width, library, first: Math.max(0, rows.length - MOST_ROWS), left: EDGE, right: width - EDGE });
    this.height = TOP + (rows.length - this.first) * ROW + 12;
    this.root = shape('svg', { xmlns: SPACE, viewBox: `0 0 ${width} ${this.height}`, width, height: this.height, role: 'img', 'aria-label': this.words() });
    this.root.append(shape('style', {}, STYLE));
    this.life(this.left, 'CPU', 'start');
    this.life(this.right, 'Module', 'end');
    ladder.arrows.filter((arrow) => arrow.from >= this.first).forEach((arrow) => this.arrow(arrow));
    rows.slice(this.first).forEach((row, place) => this.note(row, place + this.first));
  }

  // The picture as sentences.
  words() {
    const said = { '': 'arrives', again: 'arrives again', lost: 'is lost', waiting: 'is on its way' };
    return this.ladder.arrows.filter(({ from }) => from >= this.first).sort((one, other) => one.from - other.from)
      .map((arrow) => `${this.label({ ...arrow, kind: '' }, Infinity)} ${said[arrow.kind]}`).join('; ') || 'Nothing was sent yet.';
  }

  label({ way, number, kind }, most) {
    const { run } = this.ladder, octets = (way === 'to-module' ? run.toModule : run.toCpu).frames[number - 1];
    if (kind === 'again') return labelOf(this.library, octets, 0).replace(/,.*/, '') + ' once more';
    return labelOf(this.library, octets, most - ENDINGS[kind].length) + ENDINGS[kind];
  }

  y(row) {
    return TOP + (row - this.first) * ROW + 8;
  }

  life(x, name, anchor) {
    this.root.append(shape('text', { x: anchor === 'start' ? x - 14 : x + 14, y: 20, class: 'lad-head', 'text-anchor': anchor }, name),
      shape('line', { x1: x, x2: x, y1: 30, y2: this.height - 4, class: 'lad-life' }));
  }

  arrow(arrow) {
    const isDown = arrow.way === 'to-module', start = isDown ? this.left : this.right, end = isDown ? this.right : this.left;
    const isPart = arrow.kind === 'lost' || arrow.kind === 'waiting';
    const x = isPart ? start + (end - start) * (arrow.kind === 'lost' ? 0.72 : 0.6) : end, from = this.y(arrow.from), to = this.y(arrow.to);
    this.root.append(shape('line', { x1: start, y1: from, x2: x, y2: to, class: `lad-arrow lad-${arrow.kind || 'whole'}` }));
    const back = isDown ? -9 : 9, tip = `M${x} ${to}l${back} ${back * (to - from) / (x - start) - 4}v8z`;
    if (arrow.kind === 'lost') this.root.append(shape('path', { d: `M${x - 6} ${to - 6}l12 12m0 -12l-12 12`, class: 'lad-cross' }));
    else if (!isPart) this.root.append(shape('path', { d: tip, class: 'lad-tip' }));
    this.text(arrow, start, x, from, to);
  }

  // The words are above the arrow, along it, or level if it is steep.
  text(arrow, start, end, from, to) {
    const isSteep = to - from > 2 * ROW, x = (start + end) / 2, slope = isSteep ? 0 : (to - from) / (end - start);
    const y = isSteep ? from + ROW / 2 : from + (x - start) * slope, most = Math.floor(Math.abs(end - start) / LETTER) - 1;
    this.root.append(shape('text', { x, y: y - 5, class: `lad-text${arrow.kind === 'lost' ? ' lad-bad' : ''}`, 'text-anchor': 'middle',
      transform: `rotate(${(Math.atan(slope) * 180 / Math.PI).toFixed(2)} ${x} ${y.toFixed(1)})` }, this.label(arrow, most)));
  }

  // What an end does: at the module beside its line, at the CPU below the arrow that arrives.
  note({ isAtModule, note }, row) {
    if (!note) return;
    const attributes = isAtModule ? { x: this.right - 10, y: this.y(row) + 4, 'text-anchor': 'end' } : { x: this.left + 10, y: this.y(row) + 15 };
    this.root.append(shape('text', { ...attributes, class: note.startsWith('refused') ? 'lad-note lad-bad' : 'lad-note' }, note));
    if (isAtModule) this.root.append(shape('circle', { cx: this.right, cy: this.y(row), r: 4, class: 'lad-tip' }));
  }
}

// The picture of a run, `width` pixels wide. `lost` are the messages that are marked as lost.
export function ladderOf(run, lost, width, library) {
  return new Picture(new Ladder(run, lost), Math.max(width, 300), library).root;
}
