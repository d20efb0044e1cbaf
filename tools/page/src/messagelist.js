// Messages of a log as they are read: their octets one after the other, and a column for each thing known of them.

import { LOG_SIDES, LOG_TIMES } from './constants.js';

// What lines say above a message: that frames may be lost, that another part of the log begins, or that octets are in no message.
export const MARKS = { loss: 1, heading: 2, lost: 4 };

// In the place of an address, where a message has none.
export const NO_ADDRESS = 256;

// The columns: `at` has the octet of its line at which each begins, counted from 1, or 0; `sides` what the log says of the side that sent
// each; `addresses` the address before each, or NO_ADDRESS; `timeKinds` what the time of each counts from; `marks` the MARKS of the lines directly above each, and those above the end of
// the log in the place after the last.
export const COLUMN_OF = { starts: Uint32Array, lengths: Uint32Array, lines: Uint32Array, at: Uint32Array, sides: Uint8Array,
  addresses: Uint16Array, marks: Uint8Array, times: Float64Array, timeKinds: Uint8Array };

export class MessageList {
  // Room for the messages of this number of lines, which together have at most `octets` octets. A line may have several.
  constructor(lines, octets) {
    Object.assign(this, { octets: new Uint8Array(octets + 1), end: 0, count: 0 });
    for (const [name, column] of Object.entries(COLUMN_OF)) this[name] = new column(lines + 1);
    // Why lines that may have held a frame gave none, their texts, whether it is by their check, and whether no form has them, by the places
    // of their rows.
    this.damaged = new Map();
    // What is said of frames with another address, and their octets, likewise.
    this.others = new Map();
  }

  // Makes twice as much room.
  widen() {
    for (const [name, column] of Object.entries(COLUMN_OF)) {
      const narrow = this[name];
      this[name] = new column(narrow.length * 2);
      this[name].set(narrow);
    }
  }

  addMessage({ line, at = 0, side = LOG_SIDES.noSide, address = NO_ADDRESS, octets, time = null, timeKind = LOG_TIMES.noTime }) {
    const place = this.count++;
    this.starts[place] = this.end;
    this.lengths[place] = octets.length;
    this.lines[place] = line;
    this.at[place] = at;
    this.sides[place] = side;
    this.addresses[place] = address;
    this.times[place] = time ?? NaN;
    this.timeKinds[place] = timeKind;
    this.octets.set(octets, this.end);
    this.end += octets.length;
    if (this.count === this.starts.length) this.widen();
  }

  // Notes one of MARKS above the next message.
  mark(mark) {
    this.marks[this.count] |= mark;
  }

  // A frame with an address that is not judged: what is said of it, and its octets as a text.
  addOther(line, said) {
    this.others.set(this.count, said);
    this.addBad(line);
  }

  // A line that can't be read: a message without octets. `damage` is why it gave no frame, and its text, if it may have held one.
  addBad(line, damage = null) {
    if (damage) this.damaged.set(this.count, damage);
    this.addMessage({ line, octets: new Uint8Array(0) });
  }
}
