// Reads a log. The library finds the frames in its lines; here they become messages, with the time and the side that their lines
// say.

import { isCapture, linesOfCapture } from './captures.js';
import { LOG_FORMS, LOG_KINDS, LOG_REASONS, LOG_SIDES } from './constants.js';
import { fromHex } from './hex.js';
import { FIRST_ANSWER } from './library.js';
import { UNSEEN } from './log_reader.js';
import { REASONS } from './log_words.js';
import { counted, withCommas } from './dom.js';
import { MARKS, MessageList } from './messagelist.js';
import { foreignText, Sizes } from './sizes.js';
import { part } from './slices.js';

// The year 10000, which no time of a log has.
const END_OF_TIME = 253_402_300_800;
// Of a damaged line the beginning is shown.
const LONGEST_SHOWN = 100;
// The octets of which lines are made at a time.
const PIECE_OF_LINES = 1 << 17, NEW_LINE = 10;
const BYTE_ORDER_MARKS = { 0xfffe: 'utf-16le', 0xfeff: 'utf-16be' };

// The form in which a file is read: the one that is asked for or, if that is `auto`, that of the project's own texts if it is named as
// one, else that of `any` log.
export function formOf(name, asked) {
  const ending = /\.(frames|transcript)$/.exec(name);
  return LOG_FORMS[asked === 'auto' && ending ? ending[1] : asked === 'any' ? 'auto' : asked];
}

// The encoding of a file that begins with a byte order mark of UTF-16, else undefined.
export const encodingOf = (file) => BYTE_ORDER_MARKS[file[0] << 8 | file[1]];

// The octets of a file in UTF-8; those of a capture of packets are its lines.
export function* octetsOf(file) {
  if (isCapture(file)) return yield* linesOfCapture(file);
  const encoding = encodingOf(file);
  return encoding ? new TextEncoder().encode(new TextDecoder(encoding).decode(file)) : file;
}

// The lines of a log.
export function* linesOf(octets, form) {
  const lines = [''], decoder = new TextDecoder(), ending = form === LOG_FORMS.auto ? /\r\n|\r|\n/ : '\n';
  for (let start = 0; start < octets.length;) {
    yield start / octets.length;
    // Up to the end of a line.
    const end = octets.indexOf(NEW_LINE, start + PIECE_OF_LINES) + 1 || octets.length;
    const [first, ...more] = decoder.decode(octets.subarray(start, end), { stream: true }).split(ending);
    lines[lines.length - 1] += first;
    for (const line of more) lines.push(line);
    start = end;
  }
  return lines;
}

// What a skipped line says of the messages below it, by the number of its reason.
const MARK_OF = { [LOG_REASONS.loss]: MARKS.loss, [LOG_REASONS.heading]: MARKS.heading };
// The reasons of lines with octets that are in no message, beside what they give.
const DROPPED = [LOG_REASONS.more, LOG_REASONS.broken];

// Reads the octets of a log in a form of LOG_FORMS.
export function* readLog(library, logReader, octets, form) {
  const lines = yield* part(0, 0.1, linesOf(octets, form)), found = new Found(lines, form, octets.length);
  for (const [verdicts, share] of logReader.read(octets, form)) {
    for (const verdict of verdicts) {
      found.add(verdict);
    }
    yield 0.1 + 0.9 * share;
  }
  found.forms = logReader.forms();
  return found;
}

// What is found in a log by verdicts: its messages, how many lines are passed over by the words of their reason, by which forms lines are
// read, and what the log says of directions.
export class Found extends MessageList {
  // `texts` are the lines of a log with so many octets.
  constructor(texts, form, octets) {
    super(texts.length, octets);
    // How many lines have a verdict, and how many are blank.
    Object.assign(this, { texts, form, forms: [], passed: new Map(), told: 0, blanks: 0, sizes: new Sizes() });
    // How many frames there are; how many have the direction of their type in the log's words, and how many the other one.
    Object.assign(this, { sure: 0, agreeing: 0, reversed: 0 });
  }

  get isReversed() {
    return this.reversed > this.agreeing;
  }

  // How lines are read, a sentence for each form, and how many no form has.
  get remarks() {
    const said = ({ front, lines, damaged, isEcho }) => `read as “${front}” and octets: ${counted(lines, 'line')}`
      + (damaged > 0 ? `, ${withCommas(damaged)} damaged` : '') + (isEcho ? ', which repeat the messages above' : '');
    const read = this.forms.reduce((sum, { lines }) => sum + lines, 0), others = this.told - this.blanks - read;
    return [...this.forms.map(said), ...read > 0 && others > 0 ? [`no form: ${counted(others, 'line')}`] : [], ...this.sizes.remarks];
  }

  textOf(line) {
    return (this.texts[line - 1] || '').replace(UNSEEN, '');
  }

  add(verdict) {
    const { line, kind, reason, foreign } = verdict, isDropped = DROPPED.includes(reason);
    this.told += 1;
    this.sizes.count(verdict);
    if (kind === LOG_KINDS.blank) this.blanks += 1;
    if (isDropped) this.addDamaged(line, REASONS[reason], { isBeside: kind === LOG_KINDS.says });
    if (kind === LOG_KINDS.says) {
      this.addFrames(verdict);
      if (isDropped) this.mark(MARKS.lost);
    } else if (isDropped || kind === LOG_KINDS.blank || kind === LOG_KINDS.part) return;
    else if (kind === LOG_KINDS.possible) this.addDamaged(line, REASONS[reason], { isPossible: true });
    else if (this.form !== LOG_FORMS.auto && reason === LOG_REASONS.noMessage) this.addFaulty(verdict);
    else if (kind === LOG_KINDS.damaged) this.addDamaged(line, `damaged: ${REASONS[reason]}`);
    else if (kind === LOG_KINDS.passedOver && this.form !== LOG_FORMS.auto) this.addBad(line);
    else if (kind === LOG_KINDS.passedOver) {
      const why = foreign > 0 ? foreignText(foreign) : REASONS[reason];
      this.passed.set(why, (this.passed.get(why) || 0) + 1);
      this.mark(MARK_OF[reason] || 0);
    }
  }

  // A line that may have held a message. `how` says whether it is of no form.
  addDamaged(line, why, how = {}) {
    this.addBad(line, { why, text: this.textOf(line).slice(0, LONGEST_SHOWN), ...how });
  }

  // A line that is a frame by order, and spells no message.
  addFaulty({ line, said }) {
    const digits = this.textOf(line).slice(this.form === LOG_FORMS.transcript ? 2 : 0).replace(/\s/g, '');
    this.addFrames({ line, said, time: null, frames: [fromHex(digits)] });
  }

  // The numbers of the sides are those of directions. `at` is the octet of the line at which the first frame begins, counted from 1; 0
  // if it begins in a line above.
  addFrames({ line, said: side, time, timeKind, address, frames, at = 1 }) {
    const moment = time !== null && time < END_OF_TIME ? { time, timeKind } : {};
    let begin = at;
    for (const octets of frames) {
      this.addMessage({ line, side, address, octets, ...moment, at: begin });
      begin += octets.length;
      this.sure += 1;
      this.noteSide(side, octets[0]);
    }
  }

  noteSide(side, code) {
    if (side === LOG_SIDES.noSide) return;
    if (side === (code < FIRST_ANSWER ? LOG_SIDES.fromCpu : LOG_SIDES.fromModule)) this.agreeing += 1;
    else this.reversed += 1;
  }
}
