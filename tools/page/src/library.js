// The calls of the proved library, with the structs of include/fio2070.h as plain objects. Nothing is decoded here: a
// field is read from where the library wrote it.
//
// A message is given by its address and length in the machine's memory: `place` puts octets there.

import { BLOCK_ENTRIES, LOG_BEGINS, LOG_KINDS, LONGEST_FRAME, LONGEST_TEXT, MOST_RECORD_ITEMS, OUTCOMES, STANDARD_WAITING } from './constants.js';
import { STRUCTS } from './layouts.js';

const FAULTS = { none: 0, unknownType: 3 };
const PACE_FOUND = 0;
export const POLL = 54, BLOCK = POLL + 128, WATCHDOG_ANSWER = 186;
// Octets from here on begin an answer.
export const FIRST_ANSWER = 128;
export const HEARD = { taken: 0, stale: 3, other: 2 };
export const STATUS_BITS = { more: 8, lost: 4, again: 2 };

// The type of a configuration.
export const CONFIGURE_INPUTS = 51;
// Room for the text of a message.
const TEXT_ROOM = 32768;
// The octets that are handed to the library at a time.
const PIECE = 65536;

export class Library {
  constructor(machine) {
    Object.assign(this, { machine, calls: machine.exports, decoder: new TextDecoder('latin1') });
    this.result = machine.reserve(STRUCTS.state.size);
    this.message = machine.reserve(STRUCTS.command.size);
    this.frame = machine.reserve(LONGEST_FRAME + 1);
    this.out = machine.reserve(LONGEST_FRAME);
    this.room = [BigInt(this.out), BigInt(LONGEST_FRAME)];
    this.elements = machine.reserve(MOST_RECORD_ITEMS * STRUCTS.recordItem.size);
    this.text = machine.reserve(TEXT_ROOM);
  }

  // The struct of this name at an address.
  read(name, at) {
    return STRUCTS[name].get(this.machine.data, at);
  }

  // Writes fields of a struct, and zeros to the others.
  write(name, at, values) {
    this.machine.octets(at, STRUCTS[name].size).fill(0);
    STRUCTS[name].set(this.machine.data, at, values);
    return BigInt(at);
  }

  // Puts octets where a call can read them, and returns their address. No call looks behind the 774th octet.
  place(octets) {
    this.machine.octets(this.frame, LONGEST_FRAME + 1).set(octets.subarray(0, LONGEST_FRAME + 1));
    return this.frame;
  }

  // Reads a message as a command or, where no command has its type, as an answer: its struct; null where it is neither.
  decode(address, length) {
    const fault = this.faultOf('command', address, length);
    if (fault === FAULTS.none) return this.read('command', this.message);
    return fault === FAULTS.unknownType && this.faultOf('answer', address, length) === FAULTS.none ? this.read('answer', this.message) : null;
  }

  // The kind of the fault of octets that are read as a command or an answer.
  faultOf(kind, address, length) {
    this.calls[`fio2070_decode_${kind}`](BigInt(this.result), BigInt(address), BigInt(length), BigInt(this.message));
    return this.read('fault', this.result).kind;
  }

  // Whether octets are a message.
  spells(octets) {
    return this.decode(this.place(octets), octets.length) !== null;
  }

  // The words of the fault of octets that spell no command; empty if they spell one.
  commandFault(octets) {
    const fault = this.faultOf('command', this.place(octets), octets.length);
    return fault === FAULTS.none ? '' : this.textOf(this.calls.fio2070_fault_text(BigInt(this.result), BigInt(this.text), BigInt(LONGEST_TEXT)));
  }

  // The text of this length that a call wrote.
  textOf(length) {
    return this.decoder.decode(this.machine.octets(this.text, Number(length)));
  }

  // What a call wrote to `room`, which returned this count: none where there is no such message, whose count is -1 as
  // a signed number.
  written(count) {
    return this.machine.octets(this.out, Math.max(Number(count), 0)).slice();
  }

  // The octets of a configuration with these items.
  encodeConfiguration(items) {
    items.forEach((item, index) => this.write('configurationItem', this.elements + index * STRUCTS.configurationItem.size, item));
    const command = this.write('command', this.message, { code: CONFIGURE_INPUTS, count: items.length });
    return this.written(this.calls.fio2070_encode_command(command, BigInt(this.elements), BigInt(items.length), 0n, 0n, ...this.room));
  }

  // The lines that `show` writes of a message, or the words of its fault.
  show(address, length) {
    const size = this.calls.fio2070_show(BigInt(address), BigInt(length), BigInt(this.text), BigInt(TEXT_ROOM));
    return this.textOf(size).replace(/\n$/, '').split('\n');
  }

  // The same of octets.
  showOctets(octets) {
    return this.show(this.place(octets), octets.length);
  }

  // The least pace over a line; null if it has none.
  plan(line) {
    const planned = this.calls.fio2070_plan(this.write('line', this.message, line), BigInt(this.result));
    return planned === PACE_FOUND ? this.read('pace', this.result) : null;
  }

  // The address of the limits of a module in which the standard number of entries may wait, until the next call.
  limits(perBlock) {
    return this.write('limits', this.result, { waiting: STANDARD_WAITING, per_block: perBlock });
  }
}

// What the library keeps in the machine's memory, as a struct, with the calls that have its name: the last word of each is enough. Those
// for each message of a log are called directly, which is faster.
export class Kept {
  constructor(library, name, struct) {
    const place = library.machine.reserve(STRUCTS[struct].size);
    Object.assign(this, { library, machine: library.machine, calls: library.calls, name, struct, place, at: BigInt(place) });
  }

  call(word, ...given) {
    return this.calls[`fio2070_${this.name}_${word}`](this.at, ...given);
  }
}

// What reads octets, of which it takes a piece at a time.
export class KeptReader extends Kept {
  piece = this.machine.reserve(PIECE);

  // Hands octets to the call `read`, with what else it is given. How many it has taken, after each call.
  *takes(octets, given) {
    for (let start = 0; start < octets.length; start += PIECE) {
      const piece = octets.subarray(start, start + PIECE);
      this.machine.octets(this.piece, piece.length).set(piece);
      for (let taken = 0; taken < piece.length;) {
        taken += Number(this.call('read', BigInt(this.piece + taken), BigInt(piece.length - taken), BigInt(given)));
        yield start + taken;
      }
    }
  }
}

// A CPU's end that polls next for the block with this number.
export class Poller extends Kept {
  constructor(library) {
    super(library, 'poller', 'poller');
    this.number = 0;
  }

  get number() {
    return this.library.read('poller', this.place).number;
  }

  set number(number) {
    this.call('start', number);
  }

  // The octets of a poll.
  poll() {
    return this.library.written(this.call('poll', ...this.library.room));
  }

  // What a frame was, and how many items it added to the record: `recordItem` has them until the next call.
  hear(address, length) {
    const { result, elements } = this.library;
    this.calls.fio2070_poller_hear(BigInt(result), this.at, BigInt(address), BigInt(length), BigInt(elements), BigInt(MOST_RECORD_ITEMS));
    return this.library.read('heard', result);
  }

  recordItem(index) {
    return this.library.read('recordItem', this.library.elements + index * STRUCTS.recordItem.size);
  }
}

// A module, which has to be started.
export class Module extends Kept {
  constructor(library) {
    super(library, 'sized_module', 'sizedModule');
    // Three octets for each entry that may wait.
    this.ring = [BigInt(this.machine.reserve(3 * STANDARD_WAITING)), BigInt(STANDARD_WAITING)];
  }

  start(id, perBlock) {
    this.call('start', id, this.library.limits(perBlock));
  }

  scan(levels) {
    this.call('scan', ...this.ring, BigInt.asIntN(64, levels));
  }

  // The octets of the answer to a frame; none where there is no answer, and where the octets spell no command.
  receive(octets) {
    const { library } = this, frame = [BigInt(library.place(octets)), BigInt(octets.length)];
    return library.written(this.call('receive', ...this.ring, ...frame, ...library.room));
  }

  // What the module is at present.
  get state() {
    this.calls.fio2070_sized_module_state(BigInt(this.library.result), this.at);
    return this.library.read('state', this.library.result);
  }
}

// What judges a log. `lose` is for a line that may have held a message, or is a heading below one; `possible` for one with a
// message that is only possible; `miss` for one that speaks of loss.
export class LogJudge extends Kept {
  constructor(library) {
    super(library, 'log_judge', 'logJudge');
    this.outcome = this.machine.reserve(STRUCTS.judgeOutcome.size);
  }

  // Starts above the first line of a log that begins anywhere, taken where one of LOG_TAKEN says. The module has the standard limits.
  start(taken) {
    this.call('start', this.library.limits(BLOCK_ENTRIES), taken, LOG_BEGINS.anywhere);
  }

  // Takes a message that the CPU sent or heard; `said` is one of LOG_SIDES. What it is, if it is not kept; else null.
  frame(isSent, said, address, length) {
    const kind = this.calls.fio2070_log_judge_frame(this.at, Number(isSent), said, BigInt(address), BigInt(length), BigInt(this.outcome));
    return kind === OUTCOMES.kept ? null : this.library.read('judgeOutcome', this.outcome);
  }
}

// What counts the frames of a log, to tell what kind of log it looks like.
export class LogSigns extends Kept {
  constructor(library) {
    super(library, 'log_signs', 'logSigns');
  }

  // Takes a message that the CPU sent or heard; `said` is one of LOG_SIDES.
  frame(isSent, said, address, length) {
    this.calls.fio2070_log_signs_frame(this.at, Number(isSent), said, BigInt(address), BigInt(length));
  }
}

// What finds the stretches of a log: pieces in which each transition is there once and in order. It takes batches, here of one message each,
// with the outcome that this judge has just written.
export class LogStretches extends Kept {
  constructor(library, judge) {
    super(library, 'log_stretches', 'logStretches');
    this.batch = this.machine.reserve(STRUCTS.logBatch.size);
    this.seam = this.machine.reserve(STRUCTS.logSeam.size);
    Object.assign(this, library.read('logBatch', this.batch), { given: [this.batch, judge.outcome, this.seam].map(BigInt) });
  }

  // Takes a message, with its time in seconds, NaN if it has none. The seam above it; undefined if there is none.
  frame(address, length, time) {
    const { library, machine: { data, all }, batch, verdicts, lengths, octets } = this, isTimed = !Number.isNaN(time);
    STRUCTS.logBatch.set(data, batch, { verdict_count: 1, frame_count: 1, octet_count: length });
    STRUCTS.logVerdict.set(data, verdicts, { time: isTimed ? BigInt(Math.round(time * 1e6)) : 0n, frames: 1, kind: LOG_KINDS.says, time_kind: isTimed ? 1 : 0 });
    data.setUint16(lengths, length, true);
    all.copyWithin(octets, address, address + length);
    return this.calls.fio2070_log_stretches_batch(this.at, ...this.given) > 0 ? library.read('logSeam', this.seam) : undefined;
  }

  // What is counted of them.
  get counts() {
    return Object.fromEntries(Object.entries(this.library.read('logStretches', this.place)).map(([name, count]) => [name, Number(count)]));
  }
}

// What the log that is open needs in the machine's memory: its octets, a poller, what judges it, and what counts its messages.
export class Arena {
  constructor(library) {
    Object.assign(this, { machine: library.machine, address: 0, size: 0 });
    Object.assign(this, { poller: new Poller(library), judge: new LogJudge(library), signs: new LogSigns(library) });
    this.stretches = new LogStretches(library, this.judge);
  }

  hold(octets) {
    if (octets.length > this.size) {
      this.address = this.machine.reserve(octets.length);
      this.size = octets.length;
    }
    this.machine.octets(this.address, octets.length).set(octets);
    return this.address;
  }
}
