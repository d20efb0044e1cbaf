// The view Inputs: the record of the log that is open as waveforms, moved by wheel, keys and touch.

import { seamWords } from './answer.js';
import { byId, capital, counted, element, save, saveText, say } from './dom.js';
import { inLines } from './hex.js';
import { contentLine } from './record.js';
import { addressText } from './stations.js';
import { Waves } from './waves.js';

const HELP = 'The wheel or + and − zoom; dragging or ← → move; ↑ ↓ choose an input; . and , go to its next and last transition; Enter goes to its message; 0 shows all.';
const TOUCH_HELP = 'A finger moves the times, two zoom, and a tap reads a transition.';
const MOST_SHOWN = 2000;
// The signs, each with its colour, its words, and the list of a record that has some.
const LEGEND = [['×', 'warn', 'a poll without an answer', 'lostPolls'], ['↷', 'bad', 'a block that the CPU left out', 'skips'],
  ['↻', 'warn', 'a restart of the module', 'restarts'], ['▨', 'bad', 'a seam: transitions are lost, or may be missing; point at it for the reason', 'seams'], ['◆', 'bad', 'an entry that breaks a rule', 'broken']];

export class InputsView {
  // `goTo(place)` shows a message.
  constructor(goTo) {
    const canvas = byId('waves'), waves = new Waves(byId('axis'), canvas);
    // Where the pointers are that are down, by their numbers.
    Object.assign(this, { goTo: (place) => goTo(this.log.places?.[place] ?? place), canvas, waves, station: byId('station'), pointers: new Map() });
    this.station.addEventListener('change', () => this.show(this.log.whole.stations.get(Number(this.station.value))));
    const moves = { 'zoom-in': () => waves.zoom(0.5), 'zoom-out': () => waves.zoom(2), earlier: () => waves.pan(-0.4), later: () => waves.pan(0.4), 'show-all': () => waves.fit() };
    for (const [id, move] of Object.entries(moves)) byId(id).addEventListener('click', () => { move(); this.draw(); });
    byId('save-waves').addEventListener('click', () => waves.picture().toBlob((picture) => save(this.log.name + '.png', picture)));
    byId('save-record').addEventListener('click', () => saveText(this.log.name + '.record', inLines(this.log.record.lines)));
    byId('record-as-text').addEventListener('toggle', () => this.drawText());
    byId('waves-help').textContent = matchMedia('(pointer: coarse)').matches ? TOUCH_HELP : HELP;
    const lift = ({ pointerId }) => this.pointers.delete(pointerId);
    const acts = { wheel: (event) => this.wheel(event), keydown: (event) => this.key(event), click: (event) => this.click(event), dblclick: () => this.selectedMessage(),
      pointerdown: (event) => this.press(event), pointermove: (event) => this.move(event), pointerup: lift, pointercancel: lift };
    for (const [name, act] of Object.entries(acts)) canvas.addEventListener(name, act);
    new ResizeObserver(() => this.draw()).observe(canvas);
    new MutationObserver(() => this.draw()).observe(document.documentElement, { attributeFilter: ['data-theme'] });
  }

  drawText() {
    if (!byId('record-as-text').open) return;
    const { lines } = this.log.record, more = lines.length - MOST_SHOWN;
    byId('record-text').textContent = inLines([...lines.slice(0, MOST_SHOWN), ...more > 0 ? [`… and ${counted(more, 'line')} more`] : []]);
  }

  // Shows that no log is open.
  close() {
    this.log = null;
    byId('record-note').textContent = '';
    byId('record').hidden = byId('record-as-text').hidden = this.station.parentElement.hidden = true;
    byId('no-record').hidden = false;
  }

  // Shows the record of a log; of a line with several stations that of the first, and others can be chosen.
  open(log) {
    const { stations } = log, [first = log] = stations.values();
    this.station.replaceChildren(...Array.from(stations.keys(), (address) => element('option', { value: address }, addressText(address))));
    this.station.parentElement.hidden = stations.size === 0;
    this.show(first);
  }

  show(log) {
    const { record } = this.log = log;
    this.waves.open(record);
    byId('no-record').hidden = true;
    byId('record').hidden = record.count === 0;
    const note = byId('record-note').textContent = record.count === 0 ? 'No input changed in this log: it has no block with entries that a CPU would take.'
      : `A CPU that heard this log has recorded ${counted(record.count, 'transition')} of ${counted(record.lanes.size, 'input')}`
        + `${record.gaps > 0 ? ` and ${counted(record.gaps, 'gap mark')}` : ''}. `
        + `${record.lostPolls.length > 0 ? `${counted(record.lostPolls.length, 'poll')} had no answer. ` : ''}`
        + `Times are milliseconds of the module’s counter${this.waves.hasClock ? ', below them the log’s clock' : ''}.${this.foundWords()}`;
    byId('legend').replaceChildren(...LEGEND.filter(([, , , list]) => record[list].length > 0 || record[list].size > 0).flatMap(([sign, kind, words]) =>
      [element('span', { class: kind }, sign), ` ${words}   `]));
    this.canvas.setAttribute('aria-label', 'Waveforms of ' + note);
    byId('reading').textContent = 'Click or tap a transition to read it, and to go to its message.';
    Object.assign(byId('record-as-text'), { hidden: !log.isOfCpu, open: false });
    byId('record-text').textContent = '';
    this.draw();
  }

  // The first entry or answer that breaks a rule on content, and the first restart of the module.
  foundWords() {
    const { breaches, restarts } = this.log, first = [...breaches].find(([, breach]) => breach.isContent), [restart] = restarts;
    return (first ? ` The first breach: ${contentLine(this.log, first[0])}.` : '') + (restart >= 0 ? ` The first restart: ${this.log.where(restart)}.` : '');
  }

  draw() {
    if (!this.log || this.canvas.clientWidth === 0) return;
    this.waves.draw();
    const { from, to, densest, bucket, hasClock } = this.waves, dense = densest ? ` Dense lines: a full bar is ${counted(densest, 'change')} in ${bucket}.` : '';
    const clock = hasClock ? `, ${this.log.record.clockAt(from)} to ${this.log.record.clockAt(to)}` : '';
    byId('range').textContent = `${Math.round(from)} to ${Math.round(to)} ms${clock}.${dense}`;
  }

  wheel(event) {
    if (event.shiftKey) this.waves.pan(event.deltaY / 1000);
    else this.waves.zoom(1.0015 ** event.deltaY, this.waves.timeAt(event.offsetX));
    event.preventDefault();
    this.draw();
  }

  press({ pointerId, offsetX }) {
    this.pointers.set(pointerId, offsetX);
    this.moved = 0;
    this.canvas.setPointerCapture(pointerId);
  }

  // One pointer that is down moves the times, two widen them; another shows the reason of a seam.
  move({ pointerId, offsetX }) {
    const { canvas, pointers, waves } = this;
    canvas.title = this.wordsOf(waves.seamAt(offsetX));
    if (!pointers.has(pointerId)) return;
    const [one, other] = pointers.values();
    this.moved += Math.abs(offsetX - pointers.get(pointerId));
    pointers.set(pointerId, offsetX);
    const [near, far] = pointers.values();
    if (far === undefined) waves.pan((one - near) / (waves.width || 1));
    else waves.zoom(Math.abs(one - other) / (Math.abs(near - far) || 1) || 1, waves.timeAt((near + far) / 2));
    this.draw();
  }

  // Where a seam is, and its reason; empty if there is none.
  wordsOf(seam) {
    return seam ? `${capital(this.log.where(seam.place))}: ${seamWords(seam)}` : '';
  }

  click({ offsetX, offsetY }) {
    const { waves } = this, seam = waves.seamAt(offsetX), found = waves.nearest(offsetX, offsetY);
    if (this.moved > 4) return;
    if (seam) this.read(this.wordsOf(seam), seam.place);
    else if (found) this.select(found);
  }

  // Shows what is read, with a way to its message.
  read(words, place) {
    byId('reading').replaceChildren(words + ' ', element('button', { id: 'to-message', onclick: () => this.goTo(place) }, capital(this.log.where(place))));
  }

  select(found) {
    const { waves, log } = this;
    waves.selected = found;
    const item = waves.selectedItem, { input, state, time, place } = item;
    if (time < waves.from || time > waves.to) waves.pan((time - (waves.from + waves.to) / 2) / (waves.to - waves.from));
    const broken = log.record.broken.has(item) ? ` breaks ${log.reason(place).split(':')[0]}` : '', seam = log.seams.has(place) ? `; ${seamWords(log.seams.get(place))}` : '';
    this.read(`input ${input} state ${state} at ${time} ms${broken}${seam}`, place);
    say(`input ${input} becomes ${state} at ${time} milliseconds${broken}${seam}`);
    this.draw();
  }

  selectedMessage() {
    const item = this.waves.selectedItem;
    if (item) this.goTo(item.place);
  }

  key(event) {
    const { waves } = this, { lane, index } = waves.selected;
    const step = (row, to) => row in waves.lanes && this.select({ lane: row, index: Math.max(0, Math.min(to, waves.lanes[row].items.length - 1)) });
    const acts = {
      '+': () => waves.zoom(0.5), '=': () => waves.zoom(0.5), '-': () => waves.zoom(2), ArrowLeft: () => waves.pan(-0.1),
      ArrowRight: () => waves.pan(0.1), 0: () => waves.fit(), '.': () => step(lane, index + 1), ',': () => step(lane, index - 1),
      ArrowDown: () => step(lane + (index < 0 ? 0 : 1), Math.max(index, 0)), ArrowUp: () => step(lane - 1, Math.max(index, 0)),
      Enter: () => this.selectedMessage(),
    };
    if (!(event.key in acts) || event.ctrlKey || event.metaKey || event.altKey) return;
    event.preventDefault();
    acts[event.key]();
    this.draw();
  }
}
