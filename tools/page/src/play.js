// The view Play: both ends and a bus. What is done is a script for `simulate`, which a link in the address holds.

import { INPUTS, STANDARD_WAITING } from './constants.js';
import { byId, element, saveText, say, withCommas } from './dom.js';
import { fromLetters, hexText } from './hex.js';
import { ladderOf } from './ladder.js';
import { Module, Poller } from './library.js';
import { headerOf, itemText, levelsText, readScript, Run } from './script.js';

const FIRST = 'fio2070 script 2 2 0';
const FILTER = 2;
const SHOWN = 6, SHOWN_LINES = 400;
// The inputs that are seen at once.
const SEEN_INPUTS = 16;
const ALL_ONES = 2n ** BigInt(INPUTS) - 1n;

// A text in the address's fragment: base64 with the letters of an address.
const toFragment = (text) => btoa(text).replace(/\+/g, '-').replace(/\//g, '_').replace(/=+$/, '');
const fromFragment = (text) => atob(text.replace(/-/g, '+').replace(/_/g, '/'));

export class PlayView {
  constructor(library, examples) {
    Object.assign(this, { library, examples, module: new Module(library), poller: new Poller(library), lost: new Set(), ladder: byId('ladder') });
    const acts = { scan: () => this.scan(1), 'scan-more': () => this.scan(10), sync: () => this.act('sync'), restart: () => this.act('restart'),
      poll: () => this.act('poll'), round: () => this.round(), undo: () => this.undo(), 'play-anew': () => this.restart(), link: () => this.link(),
      'run-script': () => this.read(byId('script').value), 'save-ladder': () => saveText('run.svg', new XMLSerializer().serializeToString(this.ladder.firstChild)) };
    for (const [id, act] of Object.entries(acts)) byId(id).addEventListener('click', act);
    for (const it of document.querySelectorAll('[data-story]')) it.addEventListener('click', () => this.show(it.dataset.story));
    const names = Object.keys(examples).filter((name) => name.endsWith('.script')), choice = byId('play-example');
    choice.append(...names.map((name) => element('option', { value: name }, name)));
    choice.addEventListener('change', () => choice.value && this.show(choice.value));
    const [seen, others] = document.querySelectorAll('.levels');
    this.buttons = Array.from({ length: INPUTS }, (_, input) => this.levelButton(input));
    seen.append(...this.buttons.slice(0, SEEN_INPUTS));
    others.append(...this.buttons.slice(SEEN_INPUTS));
    this.restart();
    new ResizeObserver(() => requestAnimationFrame(() => this.ladder.clientWidth !== this.drawnWidth && this.drawLadder())).observe(this.ladder);
  }

  // A module whose inputs are all open, and a CPU that knows it.
  restart() {
    byId('play-story').textContent = '';
    this.levels = ALL_ONES;
    const items = Array.from({ length: INPUTS }, (_, input) => ({ input, ignore: 0, leading: FILTER, trailing: FILTER }));
    this.begin(headerOf(FIRST), ['send ' + hexText(this.library.encodeConfiguration(items)), 'to-module 1', 'to-cpu 1']);
  }

  // Runs an example.
  show(name) {
    const text = new TextDecoder().decode(fromLetters(this.examples[name]));
    this.read(text);
    byId('play-story').textContent = text.split('\n').slice(1).filter((line) => line.startsWith('#')).map((line) => line.slice(2)).join(' ');
    this.ladder.scrollTop = 0;
    if (this.ladder.getBoundingClientRect().top > innerHeight * 0.7) this.ladder.scrollIntoView({ block: 'center' });
  }

  levelButton(input) {
    const change = () => {
      this.levels ^= 1n << BigInt(input);
      this.drawLevels();
    };
    return element('button', { 'aria-pressed': 'true', 'aria-label': `input ${input}`, 'data-input': input, onclick: change }, String(input));
  }

  // Starts a run anew and does events.
  begin(header, events) {
    this.run = new Run(header, this.library, this.module, this.poller);
    this.lost.clear();
    byId('script-trouble').textContent = '';
    events.forEach((line) => this.run.do(line));
    this.draw();
  }

  act(line) {
    this.run.do(line);
    if (this.run.events.length > 0) say(this.run.lines[this.run.lines.length - 1]);
    this.draw();
  }

  scan(count) {
    for (let done = 0; done < count; done++) this.run.do('scan ' + levelsText(this.levels));
    this.draw();
  }

  // A poll that is delivered, and its answer.
  round() {
    this.run.do('poll');
    this.run.do('to-module ' + this.run.toModule.frames.length);
    this.act('to-cpu ' + this.run.toCpu.frames.length);
  }

  undo() {
    const lost = [...this.lost];
    this.begin(this.run.header, this.run.events.slice(0, -1));
    // What is marked as lost stays so, if it is still sent.
    lost.filter((key) => this.run.isSent(key)).forEach((key) => this.lost.add(key));
    this.draw();
  }

  // Runs a script that is given as a text.
  read(text) {
    const { fault, header, events } = readScript(text, this.library);
    if (fault) byId('report').textContent = fault + '\n';
    else if (header.waiting === STANDARD_WAITING) this.begin(header, events);
    byId('script-trouble').textContent = fault || (header.waiting === STANDARD_WAITING ? ''
      : `The module of this page has the standard limit of ${withCommas(STANDARD_WAITING)} waiting entries, and not ${header.waiting}.`);
  }

  link() {
    history.replaceState(null, '', '#play=' + toFragment(this.run.script()));
    if (navigator.clipboard) navigator.clipboard.writeText(location.href).catch(() => {});
    say('The address holds this run.');
  }

  // Runs the script of a fragment, and returns whether there is one.
  openFragment(fragment) {
    const [, text] = /^#play=(.*)/.exec(fragment) || [];
    if (text === undefined) return false;
    try {
      this.read(fromFragment(text));
    } catch {
      byId('script-trouble').textContent = 'The address holds no script.';
    }
    return true;
  }

  drawLevels() {
    this.buttons.forEach((it, input) => it.setAttribute('aria-pressed', String((this.levels >> BigInt(input) & 1n) === 1n)));
  }

  draw() {
    const { run } = this, { counter, waiting, filtered } = run.module.state;
    this.drawLevels();
    this.drawFrames(run.toModule, 'to-module');
    this.drawFrames(run.toCpu, 'to-cpu');
    const rows = [['The module’s counter shows', counter + ' ms'], ['Entries wait at the module', String(waiting)],
      ['The filtered states are', levelsText(filtered)], ['The CPU polls next for', 'block ' + run.poller.number]];
    byId('play-ends').replaceChildren(...rows.map(([what, value]) => element('tr', {},
      element('th', { scope: 'row' }, what), element('td', { class: 'mono' }, value))));
    byId('play-record').textContent = run.record.slice(-SHOWN_LINES).map(itemText).join('\n') || 'Nothing is recorded yet.';
    byId('script').value = run.script();
    byId('report').textContent = run.report();
    this.drawLadder();
    // What was done last is in view.
    this.ladder.scrollTop = this.ladder.scrollHeight;
  }

  // The picture, as wide as there is room.
  drawLadder() {
    const width = this.drawnWidth = this.ladder.clientWidth, { scrollTop } = this.ladder;
    if (width === 0) return;
    this.ladder.replaceChildren(ladderOf(this.run, this.lost, width, this.library));
    this.ladder.scrollTop = scrollTop;
  }

  // The last messages of a direction that can be delivered, the newest first; one that was passed over is lost.
  drawFrames(direction, event) {
    const list = byId(event), items = direction.frames.map((octets, place) => [octets, place + 1])
      .filter(([, number]) => number >= Math.max(direction.highest, 1) && !this.lost.has(event + number)).slice(-SHOWN)
      .map(([octets, number]) => this.frameItem(octets, number, direction, event));
    list.replaceChildren(...items.reverse());
    if (items.length === 0) list.append(element('li', { class: 'soft' }, 'Nothing is on its way.'));
  }

  frameItem(octets, number, direction, event) {
    const isDone = number === direction.highest, [words] = this.library.showOctets(octets);
    const deliver = element('button', { onclick: () => this.act(`${event} ${number}`) }, isDone ? 'Repeat' : 'Deliver');
    const lose = element('button', { onclick: () => {
      this.lost.add(event + number);
      this.draw();
    } }, 'Lose');
    return element('li', { class: isDone ? 'done' : false, title: hexText(octets) }, element('span', { class: 'mono' }, words), ' ',
      ...this.run.isRefused ? [] : isDone ? [deliver] : [deliver, ' ', lose]);
  }
}
