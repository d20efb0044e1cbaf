// A log that is open: its messages in the machine's memory, each decoded and judged once by the proved library, and
// counts of what was found.

import { clockOf } from './clocks.js';
import { LOG_FORMS, LOG_SIDES, LOG_TIMES } from './constants.js';
import { hexText, inLines } from './hex.js';
import { ENDS, isOfOneSide, Judging, Sides, together } from './judging.js';
import { BLOCK, FIRST_ANSWER, POLL, STATUS_BITS } from './library.js';
import { SIGNS } from './log_words.js';
import { Record } from './record.js';
import { breachWords, restartWords, ruleOf } from './rules.js';
import { each, part } from './slices.js';
import { aloneOf, leaveOut, stationsIn, stationText } from './stations.js';
import { verdictOf } from './verdict.js';

const { noSide, fromCpu, fromModule } = LOG_SIDES;
// The messages above an answer among which its command is sought.
const MOST_ABOVE = 8;
// The sign that answers came late, which the library has no number of; and the last one of the library, of a log without empty blocks.
const LATE = SIGNS.length - 1, EMPTY = LATE - 1;
// Whether a poll has the next number though the one above has no answer.
const isStep = (breach) => !breach.isContent && ruleOf(breach) === 'advance' && (breach.got - breach.due & 255) === 1;
// Whether a breach is of a rule that a late answer breaks.
const isOfLate = (breach) => !breach.isContent && ['pair', 'number'].includes(ruleOf(breach));

export class Log {
  // `found` is what was read. `end` says where the log was taken: what was sent there is what the CPU sent or heard. If it is
  // `auto`, most directions say which end it was.
  constructor(library, arena, name, found, end) {
    const { octets, end: after, texts, ...columns } = found, { remarks, isReversed, form } = found;
    Object.assign(this, { library, name, remarks, isReversed, ...columns });
    this.hasTimes = this.timeKinds.some((kind) => kind !== LOG_TIMES.noTime);
    this.hasDirections = this.sides.some((it) => it !== noSide);
    this.end = !this.hasDirections ? ENDS.bus : end !== ENDS.auto ? end : isReversed && form !== LOG_FORMS.transcript ? ENDS.module : ENDS.cpu;
    Object.assign(this, { arena, taken: end, memory: arena.hold(octets.subarray(0, after)), poller: arena.poller });
    // Of a line with several stations the log that each has alone, by its address, and the place there of each message.
    Object.assign(this, { stations: new Map(), placesAlone: new Map() });
    // What is between blocks that no stretch goes over, by the place of the block below; and what is counted of stretches.
    Object.assign(this, { seams: new Map(), counted: {} });
    for (const column of ['codes', 'blocks', 'status', 'entries', 'isFaulty', 'directions']) this[column] = new Uint8Array(this.count);
    this.stamps = new Uint32Array(this.count);
  }

  // Decodes, counts and judges all messages.
  *work() {
    const stations = stationsIn(this);
    if (stations.length > 0) leaveOut(this, stations);
    yield* part(0, 0.3, each(this.count, (place) => this.decode(place)));
    yield* part(0.3, 0.85, stations.length > 0 ? this.judgeApart(stations) : this.judge());
    yield* part(0.85, 1, this.sum());
    this.verdict = verdictOf(this);
    return this;
  }

  // Judges all messages as those of one link, and keeps its record.
  *judge() {
    // Which directions it has, and what kind of log it looks like.
    const { signs, judge } = this.arena, sides = new Sides(this);
    signs.call('start');
    yield* part(0, 0.3, each(this.count, (place) => {
      sides.add(place);
      if (this.isSure(place)) signs.frame(...this.frame(place));
    }));
    Object.assign(this, { logged: sides.kind, sign: signs.call('sign') }).keep(new Judging(this, judge));
    if (this.isInOrder) yield* part(0.3, 0.65, this.judging.work());
    if (this.isLate) this.sign = LATE;
    else if (this.leavesOut) this.excuseSteps();
    // What rules find of a log whose answers came late, or of one direction, is taken back.
    if (!this.isFit) this.keep(new Judging(this, judge));
    this.record = new Record(this);
    yield* part(0.65, 1, each(this.count, (place) => this.record.take(place)));
  }

  // Judges each station by itself, as if the log had its frames alone.
  *judgeApart(addresses) {
    const { library, arena, name, taken } = this;
    for (const [index, address] of addresses.entries()) {
      const alone = new Log(library, arena, name, aloneOf(this, address), taken);
      this.stations.set(address, yield* part(index / addresses.length, (index + 1) / addresses.length, alone.work()));
      for (const [placeAlone, place] of alone.places.entries()) this.placesAlone.set(place, placeAlone);
    }
    const judging = together([...this.stations.values()]);
    Object.assign(this, { logged: '', sign: 0, seams: judging.seams }).keep(judging);
  }

  keep(judging) {
    const { breaches, restarts } = judging;
    Object.assign(this, { judging, breaches, restarts });
  }

  // Whether all that is found are answers that are surely late.
  get isLate() {
    return this.breaches.size > 0 && this.restarts.size === 0 && [...this.breaches].every(([place, breach]) => isOfLate(breach) && this.isOwed(place));
  }

  // Whether an answer is surely late, and not one too many: of the latest messages above it, as many are commands for it as are, with it,
  // answers to these, all different. A block that is not the first one of its number has E.
  isOwed(place) {
    const { codes, blocks } = this, code = codes[place], asked = code % FIRST_ANSWER, same = hexText(this.octets(place));
    let [commands, answers] = [0, 1];
    for (let at = place - 1, left = MOST_ABOVE; at >= 0 && left > 0; at--) {
      if (this.isBadLine(at) || this.others.has(at)) continue;
      left -= 1;
      if (codes[at] % FIRST_ANSWER !== asked || asked === POLL && blocks[at] !== blocks[place]) continue;
      if (hexText(this.octets(at)) === same) return false;
      if (codes[at] < FIRST_ANSWER) commands += 1;
      else answers += 1;
      if (commands === answers) return code !== BLOCK || answers === 1 || this.hasBit(place, STATUS_BITS.again);
    }
    return false;
  }

  // Nobody is accused where a poll has no answer and the next one has the next number.
  excuseSteps() {
    for (const [place, breach] of this.breaches) if (isStep(breach)) this.breaches.delete(place);
  }

  // Whether blocks without entries are not in the log.
  get leavesOut() {
    return this.sign === EMPTY;
  }

  // Whether it looks like the log of one link in order.
  get isInOrder() {
    return this.sign === 0 || this.leavesOut || this.sign === LATE;
  }

  // Whether rules are judged of it too: it has both directions, and answers in time.
  get isFit() {
    return (this.sign === 0 || this.leavesOut) && !isOfOneSide(this.logged);
  }

  address(place) {
    return this.memory + this.starts[place];
  }

  octets(place) {
    return this.library.machine.octets(this.address(place), this.lengths[place]);
  }

  // The time of a message as it is shown, or one so many seconds after it, to a millisecond; empty if it has none.
  clockOf(place, after = null) {
    return clockOf(after === null ? this.times[place] : Math.round((this.times[place] + after) * 1000) / 1000, this.timeKinds[place]);
  }

  isBadLine(place) {
    return this.lengths[place] === 0;
  }

  // Whether a place has a message, or octets that are read as one.
  isSure(place) {
    return !this.isBadLine(place);
  }

  // The lines that `show` writes of a message.
  words(place) {
    return this.isBadLine(place) ? ['bad line'] : this.library.show(this.address(place), this.lengths[place]);
  }

  // What is written of a message: its lines, or the text of a damaged line or of a frame with another address.
  written(place) {
    const said = this.damaged.get(place) || this.others.get(place);
    return said ? [said.text] : this.words(place);
  }

  // Where a message is, with its station.
  where(place) {
    return this.whole ? this.whole.lineOf(this.places[place]) : [this.lineOf(place), this.station(place)].filter(Boolean).join(', ');
  }

  // The station of a message, if there are several.
  station(place) {
    return this.stationAlone(place) ? stationText(this.addresses[place]) : '';
  }

  // The log that the station of a message has alone, if there are several.
  stationAlone(place) {
    return this.isBadLine(place) ? undefined : this.stations.get(this.addresses[place]);
  }

  // Its line or, if that has several messages, which one it is, and where it begins.
  lineOf(place) {
    const line = this.lines[place], octet = this.at[place] > 0 ? `, octet ${this.at[place]}` : '';
    if (this.isWithoutLines) return `message ${line}${octet}`;
    return line === this.lines[place - 1] || place + 1 < this.count && line === this.lines[place + 1] ? `message ${place + 1}${octet} of line ${line}` : `line ${line}`;
  }

  decode(place) {
    const isOther = this.others.has(place), message = !isOther && !this.isBadLine(place) ? this.library.decode(this.address(place), this.lengths[place]) : null;
    this.isFaulty[place] = !isOther && message === null ? 1 : 0;
    // A transcript by order says itself who sent a frame.
    this.directions[place] = this.form === LOG_FORMS.transcript ? this.sides[place] : isOther || this.isFaulty[place] ? noSide : this.wayByType(place);
    if (message === null) return;
    this.codes[place] = message.code;
    this.blocks[place] = message.block;
    this.status[place] = message.status;
    this.stamps[place] = message.stamp;
    if (message.code === BLOCK) this.entries[place] = message.count;
  }

  // The CPU sends commands.
  wayByType(place) {
    return this.octets(place)[0] < FIRST_ANSWER ? fromCpu : fromModule;
  }

  // Whether the CPU sent a message, as it is judged: by its first octet if nothing says it.
  isSent(place) {
    return (this.directions[place] || this.wayByType(place)) === fromCpu;
  }

  // How many messages each fact holds for; of entries how many there are, and no frame with another address is a message.
  *sum() {
    this.summary = { badLines: this.lengths.subarray(0, this.count).reduce((sum, length) => sum + (length === 0 ? 1 : 0), -this.others.size) };
    for (const [index, [name, , test]] of FACTS.entries()) {
      this.summary[name] = yield* part(index / FACTS.length, (index + 1) / FACTS.length, each(this.count, (place) => test(this, place)));
    }
    Object.assign(this.summary, { messages: this.count - this.others.size, entries: this.entries.reduce((sum, entries) => sum + entries, 0) });
  }

  // A message as the library takes it: whether the CPU sent it, who the log says sent it, and its octets.
  frame(place) {
    return [this.isSent(place), this.sides[place], this.address(place), this.lengths[place]];
  }

  // What `fio2070 check` says of a transcript, by the rules on messages alone.
  get checkLine() {
    const bad = this.lengths.subarray(0, this.count).indexOf(0);
    if (bad >= 0) return `line ${this.lines[bad]}: bad line`;
    const first = [...this.breaches].find(([, breach]) => !breach.isContent);
    return first ? `line ${this.lines[first[0]]} breaks ${ruleOf(first[1])}` : `good ${this.count} frames`;
  }

  // Whether the log says what a CPU sent and heard, all through.
  get isOfCpu() {
    return this.hasDirections && this.end !== ENDS.bus;
  }

  // The breach of a rule on content of a message; undefined if it has none.
  content(place) {
    const breach = this.breaches.get(place);
    return breach && breach.isContent ? breach : undefined;
  }

  // What the breach of a message means, or that the module restarted; empty if it is neither.
  meaning(place) {
    const breach = this.breaches.get(place);
    if (breach) return breachWords(this, place, breach);
    return this.restarts.has(place) ? restartWords(this, place) : '';
  }

  // The rule that a message breaks, and what that means; else as `meaning`.
  reason(place) {
    const breach = this.breaches.get(place);
    return (breach ? `${ruleOf(breach)}: ` : '') + this.meaning(place);
  }

  // Whether a message is a block whose status has a bit.
  hasBit(place, bit) {
    return this.codes[place] === BLOCK && (this.status[place] & bit) !== 0;
  }

  // The next place in a direction that is no frame with another address.
  beside(place, step) {
    let next = place + step;
    while (this.others.has(next)) next += step;
    return next;
  }

  // Whether an answer is not directly below its command.
  isUndue(place) {
    return this.codes[this.beside(place, -1)] + FIRST_ANSWER !== this.codes[place];
  }

  // Whether an answer is to a command above: a block of the number that was polled last, or of the one before.
  answersAbove(place) {
    const asked = place > 0 ? this.codes.lastIndexOf(this.codes[place] - FIRST_ANSWER, place - 1) : -1;
    return asked >= 0 && (this.codes[place] !== BLOCK || (this.blocks[asked] - this.blocks[place] & 255) < 2);
  }

  // Whether a message is a poll after which a command comes before a block answer. Above a line that may have held one that is not known, nor
  // in a log that has one direction alone.
  isUnanswered(place) {
    if (this.codes[place] !== POLL) return false;
    const alone = this.stationAlone(place);
    if (alone) return alone.isUnanswered(this.placesAlone.get(place));
    for (let next = place; ;) {
      next = this.beside(next, 1);
      if (next >= this.count || this.marks[next] > 0 || this.damaged.has(next) || this.codes[next] === BLOCK) return false;
      if (this.codes[next] > 0 && this.codes[next] < FIRST_ANSWER) return !isOfOneSide(this.logged);
    }
  }

  // The text that `show` writes of these messages.
  showText() {
    const line = (place) => this.isFaulty[place] ? [`line ${this.lines[place]}: ${this.words(place)[0]}`] : this.words(place);
    return Array.from({ length: this.count }, (_, place) => this.others.has(place) ? '' : inLines(line(place))).join('');
  }
}

// What is counted: its name, its noun, the test of the messages that it filters by, and its colour.
export const FACTS = [
  ['messages', 'message', () => true],
  ['broken', 'breach', (log, place) => log.breaches.has(place), 'bad'],
  ['restarts', 'restart', (log, place) => log.restarts.has(place), 'warn'],
  ['faults', 'faulty line', (log, place) => log.isFaulty[place] === 1, 'bad'],
  ['possible', 'formless line', (log, place) => log.damaged.get(place)?.isPossible === true, 'warn'],
  ['others', 'other frame', (log, place) => log.others.has(place), 'warn'],
  ['seams', 'seam', (log, place) => log.seams.has(place), 'warn'],
  ['repeats', 'repeated block', (log, place) => log.hasBit(place, STATUS_BITS.again), 'warn'],
  ['unanswered', 'lost answer', (log, place) => log.isUnanswered(place), 'warn'],
  ['polls', 'poll', (log, place) => log.codes[place] === POLL],
  ['blocks', 'block', (log, place) => log.codes[place] === BLOCK],
  ['entries', 'entry', (log, place) => log.entries[place] > 0],
];
