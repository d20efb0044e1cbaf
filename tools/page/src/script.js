// Scripts of `simulate`, run by the proved module and the proved poller. The bus between them is here: frames of each
// direction have numbers, and a delivery is refused as docs/FORMATS.md says. The report has the words of `simulate`.

import { BLOCK_ENTRIES, MOST_WAITING, STANDARD_WAITING } from './constants.js';
import { fromHex, hexText, inLines } from './hex.js';
import { HEARD, POLL } from './library.js';

const MOST_EVENTS = 10_000;
// The numbers that a header has, by the version: the module's identity, the poller's number and, in version 3, the limits.
const HEADER_NUMBERS = { 1: 2, 2: 2, 3: 4 };
// The events: how what is given with one is written, and what a run does.
const EVENTS = {
  scan: [/^[0-9a-f]{16}$/i, (run, levels) => run.module.scan(levelsOf(levels))],
  sync: [/^$/, (run) => run.module.call('line_sync')],
  raise: [/^[0-9a-f]{2}$/i, (run, mask) => run.module.call('raise', parseInt(mask, 16))],
  poll: [/^$/, (run) => run.toModule.send(run.poller.poll())],
  send: [/^(?:[0-9a-f]{2})+$/i, (run, digits) => run.sent(fromHex(digits))],
  'to-module': [/^\d{1,9}$/, (run, number) => run.toModule.deliver(Number(number), (octets) => run.atModule(octets))],
  'to-cpu': [/^\d{1,9}$/, (run, number) => run.toCpu.deliver(Number(number), (octets) => run.atCpu(octets))],
  restart: [/^$/, (run) => run.module.call('restart')],
};

// Levels as eight octets, input 0 in the lowest bit of the first.
export const levelsText = (levels) => hexText(Array.from({ length: 8 }, (_, place) => Number((levels >> BigInt(8 * place)) & 255n)));
const levelsOf = (digits) => fromHex(digits).reduce((word, octet, place) => word | BigInt(octet) << BigInt(8 * place), 0n);

// The header of a script; null where the line is none or its numbers are out of range.
export function headerOf(line) {
  const [, version, given = ''] = /^fio2070 script ([123])((?: \d{1,9})+)$/.exec(line) || [];
  const numbers = given.split(' ').slice(1).map(Number);
  if (numbers.length !== HEADER_NUMBERS[version]) return null;
  const [id, number, perBlock = BLOCK_ENTRIES, waiting = STANDARD_WAITING] = numbers;
  const isInRange = id <= 255 && number <= 255 && perBlock >= 1 && perBlock <= BLOCK_ENTRIES
    && waiting >= STANDARD_WAITING && waiting <= MOST_WAITING;
  return isInRange ? { version: Number(version), id, number, perBlock, waiting, line } : null;
}

// The name of an event and what is given with it; null where a line is none.
function eventOf(line, version) {
  const [, name, given = ''] = /^([a-z-]+)(?: (.+))?$/.exec(line) || [];
  return Object.hasOwn(EVENTS, name) && EVENTS[name][0].test(given) && (name !== 'restart' || version > 1) ? { name, given } : null;
}

// Reads a script: its header and its events, or the line of its first fault.
export function readScript(text, library) {
  const lines = text.replace(/\n$/, '').split('\n');
  const header = headerOf(lines[0]);
  if (!header) return { fault: 'line 1: bad header' };
  const events = [];
  for (const [place, line] of lines.entries()) {
    if (place === 0 || line === '' || line.startsWith('#')) continue;
    if (events.length === MOST_EVENTS) return { fault: `line ${place + 1}: too many events` };
    const event = eventOf(line, header.version);
    if (!event) return { fault: `line ${place + 1}: bad line` };
    const fault = event.name === 'send' && library.commandFault(fromHex(event.given));
    if (fault) return { fault: `line ${place + 1}: bad frame ${fault}` };
    events.push(line);
  }
  return { header, events };
}

// Frames of one direction, numbered from 1, and the highest number that was delivered.
class Direction {
  frames = [];
  highest = 0;

  send(octets) {
    this.frames.push(octets);
    return `sent ${this.frames.length} ${hexText(octets)}`;
  }

  // Delivers a frame, and returns what `hear` says of its octets; or why the bus does not deliver it.
  deliver(number, hear) {
    if (number < 1 || number > this.frames.length) return `refused not sent ${number}`;
    if (number < this.highest) return `refused out of order ${number} after ${this.highest}`;
    this.highest = number;
    return hear(this.frames[number - 1]);
  }
}

// A run of a script, event by event.
export class Run {
  // `module` and `poller` are the library's; they are started anew.
  constructor(header, library, module, poller) {
    Object.assign(this, { header, library, module, poller, lines: [], events: [], record: [], isRefused: false });
    // After each event: how many entries wait at the module, and how many items the record has.
    this.waits = [];
    this.recorded = [];
    Object.assign(this, { toModule: new Direction(), toCpu: new Direction() });
    module.start(header.id, header.perBlock);
    poller.number = header.number;
  }

  // Does an event, and keeps its line of the report. After a refusal nothing is done.
  do(line) {
    if (this.isRefused) return;
    const { name, given } = eventOf(line, this.header.version);
    const outcome = EVENTS[name][1](this, given) || 'quiet';
    this.isRefused = outcome.startsWith('refused');
    this.events.push(line);
    this.lines.push(`${this.events.length} ${outcome}`);
    this.waits.push(this.module.state.waiting);
    this.recorded.push(this.record.length);
  }

  sent(octets) {
    return octets[0] === POLL ? 'refused poll is ours' : this.toModule.send(octets);
  }

  atModule(octets) {
    const answer = this.module.receive(octets);
    return answer.length > 0 ? this.toCpu.send(answer) : 'quiet';
  }

  atCpu(octets) {
    const heard = this.poller.hear(this.library.place(octets), octets.length);
    for (let place = 0; place < heard.items; place++) this.record.push(this.poller.recordItem(place));
    return heard.kind in HEARD_WORDS ? HEARD_WORDS[heard.kind](heard) : 'unreadable';
  }

  // Whether a message was sent, by its direction and its number, as `to-cpu3`.
  isSent(key) {
    const [, way, number] = /^(to-\w+?)(\d+)$/.exec(key);
    return Number(number) <= (way === 'to-module' ? this.toModule : this.toCpu).frames.length;
  }

  // The report, as `simulate` writes it.
  report() {
    const { counter, waiting } = this.module.state, { record } = this;
    const end = this.isRefused ? [] : [`counter ${counter}`, `number ${this.poller.number}`, `waiting ${waiting}`, `record ${record.length}`, ...record.map(itemText)];
    return inLines([...this.lines, ...end]);
  }

  // The script of this run.
  script() {
    return inLines([this.header.line, ...this.events]);
  }
}

// What a report says of a message that was heard, by what it was.
const HEARD_WORDS = {
  [HEARD.taken]: ({ entries, status }) => `block entries ${entries} status ${hexText([status])}`,
  [HEARD.stale]: ({ number }) => `stale ${number}`,
  [HEARD.other]: ({ code }) => `other ${code}`,
};

export const itemText = (item) => item.gap ? 'gap' : `input ${item.input} state ${item.state} stamp ${item.wide & 0xffff} wide ${item.wide}`;
