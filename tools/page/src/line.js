// What a line carried: a file of its octets or of its bits, or octets with flags in the lines of a log. The library finds the frames;
// here they become messages, each in a line of its own if the file has none.

import { isCapture } from './captures.js';
import { LOG_FORMS, LOG_SIDES } from './constants.js';
import { counted } from './dom.js';
import { asLatin, fromHex, hexText, inLines } from './hex.js';
import { LINE } from './log_words.js';
import { encodingOf, formOf, Found, linesOf, octetsOf, readLog } from './reader.js';
import { AT_END, digitsOf, REWRITINGS, rewritten } from './rewriting.js';
import { each, part } from './slices.js';
import { ANY, OWN, SAYS, wireOf } from './wire.js';

// The first octets of a file, which show what it is, and the first bits, which show how long one is.
const WINDOW = 1 << 14;
// Those that show whether it is a text at all.
const FIRST_OCTETS = 4096;
// The octets of a file that are read at a time.
const OCTETS_AT_ONCE = 4096;
// The octets of a line that shows a text; below one that is no text it has more.
const SHORT_TEXT = 4, LONG_TEXT = 16;
// The runs between those at the ends that show how long a bit is; one in so many may be noise.
const LEAST_RUNS = 16, MOST_SHORT = 20;
const TEXT_OF_BITS = /^[01\0\x01,\s]*$/, CONTROLS = /[\0-\x08\x0e-\x1a\x1c-\x1f]/;
const ROW_OF_DUMP = /^\s*(?:0x)?([0-9A-Fa-f]{4,16})(?::\s*|\s{2,})((?:[0-9A-Fa-f]{2} {0,2})+)/, MOST_OF_ROW = 64;
const OFFSET = /^\s*[0-9A-Fa-f]{4,16}\s*$/;
// How a frame of SDLC begins, with its flag.
const FLAGGED = /7e(?:[ ,:;|-]|0x|\\x)*14(?:[ ,:;|-]|0x|\\x)*83/i, FLAG = 0x7e;

// The ways that a reader may choose, and their words.
export const LINE_WAYS = {
  digits: 'SDLC frames with flags, in lines or rows of a dump',
  line: 'What a line carried: its octets',
  bits: 'What a line carried: its bits, lowest first',
  'bits-high-first': 'What a line carried: its bits, highest first',
};

function isText(octets) {
  try {
    return !CONTROLS.test(new TextDecoder('utf-8', { fatal: true }).decode(octets));
  } catch {
    return false;
  }
}

// Whether octets are no text: all of them are 0, or of the others one in ten is a control character or no UTF-8.
function isBinary(octets) {
  const text = new TextDecoder().decode(octets.filter((octet) => octet !== 0)), strange = text.match(/[\x01-\x08\x0b\x0e-\x1a\x1c-\x1f\ufffd]/g) || [];
  return text === '' ? octets.length > 0 : 10 * strange.length > text.length;
}

// What a file is by how it begins: one of LINE_WAYS, 'octets' for another file that is no text, or '' for the lines of a log.
function lineWayOf(library, file) {
  if (isCapture(file) || encodingOf(file)) return '';
  const begin = file.subarray(0, WINDOW), all = asLatin(begin), wire = wireOf(library, 'line').start(OWN);
  if (TEXT_OF_BITS.test(all)) return /[01\x01]/.test(all) ? 'bits' : '';
  let at = 0, isStrange = false, frames = 0, damaged = 0;
  for (const [piece] of all.matchAll(/[^\r\n]*[\r\n]|[^\r\n]+/g)) {
    const octets = begin.subarray(at, at + piece.length), line = octets.subarray(0, -1);
    for (const { kind } of wire.read(octets)) {
      if (kind === SAYS.message) return 'line';
      if (kind === SAYS.damaged) damaged += 1;
      else frames += 1;
    }
    at += piece.length;
    if (!/[\r\n]$/.test(piece)) break;
    isStrange ||= !isText(line);
    if (isText(line) && line.length >= (isStrange ? LONG_TEXT : SHORT_TEXT) && !TEXT_OF_BITS.test(piece)) return '';
  }
  if (frames > 0 && frames >= damaged) return 'line';
  return isBinary(begin.subarray(0, FIRST_OCTETS)) ? 'octets' : '';
}

// What makes bits, an octet each, of octets of a file: those of a text of 0 and 1 or of octets 0 and 1, or eight of each octet.
function bitsBy(file, isHighFirst) {
  if (TEXT_OF_BITS.test(asLatin(file.subarray(0, 64)))) return (octets) => octets.filter((octet) => octet < 2 || octet >> 1 === 0x18);
  return (octets) => Uint8Array.from({ length: 8 * octets.length }, (_, index) => octets[index >> 3] >> (isHighFirst ? 7 - (index & 7) : index & 7) & 1);
}

// How many samples nearly all bits have; 1 if too few are there to say so.
function samplesOf(bits) {
  const start = Math.max(bits.findIndex((bit) => (bit & 1) !== (bits[0] & 1)), 0);
  const runs = asLatin(bits.subarray(start, start + WINDOW).map((bit) => 0x30 + (bit & 1))).match(/0+|1+/g).slice(1, -1).map((run) => run.length);
  return runs.length < LEAST_RUNS ? 1 : runs.sort((one, other) => one - other)[Math.floor(runs.length / MOST_SHORT)];
}

// What is said of the frames with another address. A right check is no doubt.
class Others {
  counts = new Map();

  note({ address, control }) {
    const why = LINE.other.replace('{address}', hexText([address])).replace('{control}', hexText([control]));
    this.counts.set(why, (this.counts.get(why) || 0) + 1);
    return why;
  }

  words() {
    return [...this.counts].map(([why, count]) => `${counted(count, 'frame')} ${why}`);
  }
}

// Makes messages of what a line says; `lines` are those of the log, if it has some. `silence` is said if it has no frame.
class Heard extends Found {
  constructor(lines, octets) {
    super(lines, LOG_FORMS.auto, octets);
    Object.assign(this, { strangers: new Others(), silence: '' });
  }

  get remarks() {
    return [...this.sure === 0 && this.silence !== '' ? [this.silence] : [], ...this.strangers.words()];
  }

  // Adds what a line says; it begins at this octet.
  hear(one, line, at, { said = LOG_SIDES.noSide, time = null, timeKind } = {}) {
    if (one.kind === SAYS.other) this.addOther(line, { why: this.strangers.note(one), text: hexText(one.message) });
    else if (one.kind === SAYS.damaged) this.addUnchecked(line);
    else this.addFrames({ line, said, time, timeKind, address: one.address, frames: [one.message], at });
  }

  addUnchecked(line) {
    this.addDamaged(line, `damaged: ${LINE.damaged}`);
  }
}

// Where the frame begins that ends below this octet, counted from 1; 0 if its first flag is above these octets.
function beginOf(octets, end) {
  const flag = octets.subarray(0, end - 1).lastIndexOf(FLAG);
  return flag < 0 ? 0 : flag + 2;
}

// Reads a file of the octets or the bits of a line.
function* readLine(library, file, way, own) {
  const isOctets = way === 'line', wire = wireOf(library, isOctets ? 'line' : 'bits').start(own), heard = new Heard([], file.length);
  const toLine = isOctets ? (octets) => octets : bitsBy(file, way === 'bits-high-first');
  let number = 0;
  for (let start = 0; start < file.length; start += OCTETS_AT_ONCE) {
    yield start / file.length;
    for (const one of wire.read(toLine(file.subarray(start, start + OCTETS_AT_ONCE)))) {
      heard.hear(one, ++number, isOctets ? beginOf(file, one.end) : 0);
    }
  }
  heard.isWithoutLines = true;
  heard.silence = isOctets ? LINE.octets : silenceOf(toLine(file.subarray(0, 64 * WINDOW)));
  return heard;
}

// What is said of bits without a frame.
function silenceOf(bits) {
  const samples = bits.length === 0 ? 1 : samplesOf(bits);
  return samples > 1 ? LINE.faster.replace('{count}', samples) : LINE.bits;
}

// What one side sent, line by line of a log.
class Side {
  constructor(wire, alone, own) {
    Object.assign(this, { wire, alone, own, isBegun: false, isOpen: false });
  }

  // Hears the octets of a line, alone or with those above. They are damaged if they say nothing, and no flag came down to here. A row of a
  // dump is never alone.
  hear(heard, octets, line, before, isRow) {
    const hasFlags = octets.includes(FLAG), alone = hasFlags || isRow || this.isOpen ? [] : this.readAlone(octets);
    for (const one of alone) heard.hear(one, line, 1, before);
    if (alone.length > 0) return;
    if (hasFlags || this.isBegun) this.goOn(heard, octets, line, before);
    else if (!isRow) heard.addUnchecked(line);
  }

  goOn(heard, octets, line, before) {
    if (!this.isBegun) this.wire.start(this.own);
    const { count } = this.wire;
    for (const one of this.wire.read(octets)) heard.hear(one, line, beginOf(octets, one.end - count), before);
    this.isBegun = true;
    this.isOpen = octets.at(-1) !== FLAG;
  }

  // What octets without flags say, if all of them are in frames.
  readAlone(octets) {
    const heard = [...this.alone.start(ANY).read(Uint8Array.of(FLAG, ...octets, FLAG))];
    return heard.every(({ kind }) => kind !== SAYS.damaged) ? heard : [];
  }
}

// The digits of the octets of a line, and what is before them: null in a row of a dump, whose heading says it.
function partOfLine(text, above) {
  const row = digitsOfRow(text), [found] = row === null ? AT_END.exec(text) || [] : [];
  if (row !== null) return { digits: row, head: null };
  // Some dumps end with an offset.
  if (OFFSET.test(text) && Number.parseInt(text, 16) === endOfRow(above)) return { digits: '', head: '' };
  if (found === undefined) return { digits: '', head: text };
  // A time in front of octets: the digits below a point, or words such as 12:00:01 where those of the octets are not written so.
  const isFraction = text.at(-found.length - 1) === '.', isOfClock = /[0-9a-f][:-]\S*$/i.test(found.trimEnd());
  const [time] = (isFraction ? /^[0-9a-f]+/i : isOfClock ? /^/ : /^(?:\s*[0-9a-f]+[:-]\S+)+(?=\s)|^/i).exec(found);
  const octets = found.slice(time.length);
  return { digits: digitsOf(octets), head: text.slice(0, -octets.length) };
}

// The digits of a row of a dump, without its offset and its column of characters; null if a text is no row.
function digitsOfRow(text) {
  const [all, offset, octets] = ROW_OF_DUMP.exec(text) || [];
  if (all === undefined || Number.parseInt(offset, 16) % 4 !== 0) return null;
  const start = all.length - octets.length, places = [...octets.matchAll(/[0-9A-Fa-f]{2}/g)], values = fromHex(digitsOf(octets));
  const bare = (words) => words.replace(/^[ |<>]+|[ |<>]+$/g, '');
  for (let count = Math.min(places.length, MOST_OF_ROW); count > 0; count--) {
    const end = start + places[count - 1].index + 2, rest = text.slice(end);
    const column = asLatin(values.subarray(0, count)).replace(/[^ -~]/g, '.');
    if (/^\s/.test(rest) && bare(rest.trim()) === bare(column)) return digitsOf(text.slice(start, end));
  }
  return text.slice(all.length).trim() === '' ? digitsOf(octets) : null;
}

// The offset below a row of a dump; NaN if a text is no row.
const endOfRow = (text) => Number.parseInt((ROW_OF_DUMP.exec(text) || [])[1], 16) + (digitsOfRow(text) || '').length / 2;

// Reads the lines of a log as the octets of a line.
function* readDigits(library, logReader, octets, own) {
  const lines = yield* part(0, 0.1, linesOf(octets, LOG_FORMS.auto)), heard = new Heard(lines, octets.length), parts = [];
  const sides = Object.values(LOG_SIDES).map((side) => new Side(wireOf(library, side), wireOf(library, 'alone'), own)), heads = [];
  yield* part(0.1, 0.4, each(lines.length, (index) => {
    const one = partOfLine(lines[index], lines[index - 1] || '');
    parts.push(one);
    // A frame with the same before it, of which the library says side and time.
    heads.push(`${one.head ?? ''} b600000000000001`);
  }));
  let heading = {};
  for (const [verdicts, share] of logReader.read(new TextEncoder().encode(inLines(heads)), LOG_FORMS.auto)) {
    yield 0.4 + 0.6 * share;
    for (const { line, said, time, timeKind } of verdicts) {
      const { digits, head } = parts[line - 1], before = head === null ? heading : { said, time, timeKind };
      if (digits !== '' && digits.length % 2 === 0) sides[before.said || 0].hear(heard, fromHex(digits), line, before, head === null);
      else if (head.trim() !== '') heading = { said, time, timeKind };
    }
  }
  return heard;
}

// Reads a file: in a way that is chosen or, if the form is `auto`, as what it shows itself to be.
export function* readAny(library, logReader, name, file, { form, own = OWN, pattern }) {
  const isChosen = form in REWRITINGS, logForm = formOf(name, isChosen ? 'any' : form);
  const way = form in LINE_WAYS || isChosen ? form : logForm === LOG_FORMS.auto ? lineWayOf(library, file) : '';
  if (way in LINE_WAYS && way !== 'digits') return yield* readLine(library, file, way, own);
  const octets = yield* part(0, 0.1, way in REWRITINGS ? rewritten(file, way, pattern) : octetsOf(file));
  if (way === 'digits') return yield* part(0.1, 1, readDigits(library, logReader, octets, own));
  const read = yield* part(0.1, 0.9, readLog(library, logReader, octets, logForm));
  if (read.sure > 0 || logForm !== LOG_FORMS.auto || !FLAGGED.test(asLatin(octets.subarray(0, WINDOW)))) return read;
  const heard = yield* part(0.9, 1, readDigits(library, logReader, octets, own));
  return heard.sure > 0 ? heard : read;
}
