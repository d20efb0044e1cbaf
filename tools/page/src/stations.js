// The stations of a line, each by the address before its messages, as `fiolog check` reports them: which addresses are stations', and the log
// that each has alone.

import { hexText } from './hex.js';
import { FIRST_ANSWER } from './library.js';
import { STATIONS } from './log_numbers.js';
import { LINE } from './log_words.js';
import { COLUMN_OF, NO_ADDRESS } from './messagelist.js';

// The address of all stations, which none answers to.
const BROADCAST = 255;
// An address in digits, and in words.
export const addressText = (address) => hexText([address]).toUpperCase();
export const stationText = (address) => `address ${addressText(address)}`;

// Counts the addresses of frames.
class Addresses {
  constructor() {
    // How many frames have each, and how many answers that of the command above, or another.
    Object.assign(this, { frames: new Map(), same: new Map(), others: 0, count: 0, above: [0, NO_ADDRESS] });
  }

  add(code, address) {
    const [codeAbove, addressAbove] = this.above, isAnswer = code === codeAbove + FIRST_ANSWER, more = (counts) => counts.set(address, (counts.get(address) || 0) + 1);
    more(this.frames);
    if (isAnswer && address === addressAbove) more(this.same);
    else if (isAnswer) this.others += 1;
    this.count += 1;
    this.above = [code, address];
  }

  isStations([address, frames]) {
    return address !== NO_ADDRESS && address !== BROADCAST && (this.same.has(address) || frames >= STATIONS.silent && STATIONS.share * frames >= this.count);
  }

  // Those of stations, in order; none if all frames are of one link.
  get ofStations() {
    const { frames, same, others } = this, several = frames.size - (frames.has(NO_ADDRESS) ? 1 : 0);
    const isSplit = several > 1 && several <= STATIONS.most && [...same.values()].reduce((sum, count) => sum + count, 0) > STATIONS.odd * others;
    return isSplit ? [...frames].filter((one) => this.isStations(one)).map(([address]) => address).sort((one, other) => one - other) : [];
  }
}

// The addresses of the stations of a log.
export function stationsIn(log) {
  const addresses = new Addresses();
  if (log.addresses.subarray(0, log.count).every((address) => address === NO_ADDRESS)) return [];
  for (let place = 0; place < log.count; place++) {
    if (!log.isBadLine(place)) addresses.add(log.octets(place)[0], log.addresses[place]);
  }
  return addresses.ofStations;
}

// Takes each frame of a log that is of none of these stations as one with another address. It may be of any: there all lose sync, unless
// it is sent to all.
export function leaveOut(log, stations) {
  const known = new Set(stations);
  for (let place = 0; place < log.count; place++) {
    const address = log.addresses[place];
    if (log.isBadLine(place) || known.has(address)) continue;
    const why = address === NO_ADDRESS ? LINE.none : LINE.of.replace('{address}', addressText(address));
    log.others.set(place, { why, text: hexText(log.octets(place)), isLoss: address !== BROADCAST });
    log.lengths[place] = 0;
  }
}

// Whether a place is in the log that a station has alone: its frames, and lines that may have held one.
function isOf(log, address, place) {
  if (!log.isBadLine(place)) return log.addresses[place] === address;
  return !log.others.has(place) || log.others.get(place).isLoss === true;
}

// The log that a station has alone, as what is read: its octets are those of the log. `places` are its places there.
export function aloneOf(log, address) {
  const places = [], marks = [], damaged = new Map();
  let above = 0;
  for (let place = 0; place < log.count; place++) {
    above |= log.marks[place];
    if (!isOf(log, address, place)) continue;
    const lost = log.damaged.get(place) || log.others.get(place);
    if (lost) damaged.set(places.length, lost);
    places.push(place);
    marks.push(above);
    above = 0;
  }
  const columns = Object.entries(COLUMN_OF).map(([name, column]) => [name, column.from([...places, log.count], (place) => log[name][place])]);
  return { ...Object.fromEntries(columns), marks: Uint8Array.from([...marks, above | log.marks[log.count]]), damaged, others: new Map(), octets: new Uint8Array(0), end: 0, count: places.length, form: log.form, remarks: log.remarks, isReversed: log.isReversed,
    isWithoutLines: log.isWithoutLines, whole: log, places };
}
