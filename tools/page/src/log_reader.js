// The library's reader of logs. It takes the octets of a log, and gives a verdict on each line.

import { LOG_TIMES } from './constants.js';
import { STRUCTS } from './layouts.js';
import { KeptReader } from './library.js';

// What is no character of a line; and what has no shape of its own, which is shown by its digits.
export const UNSEEN = /\x1b\[[^A-Za-z]*[A-Za-z]?|[\0\ufeff]/g;
const ACTS = /[\x01-\x1f\x7f-\x9f]/g;
const shownAs = (character) => `\\x${character.charCodeAt(0).toString(16).padStart(2, '0')}`;

export class LogReader extends KeptReader {
  constructor(library) {
    super(library, 'log', 'logReader');
    this.batch = this.machine.reserve(STRUCTS.logBatch.size);
    this.list = this.machine.reserve(STRUCTS.logFormList.size);
  }

  // The verdicts on all lines of a log, in order, a batch at a time, with the share of the log that was read. `form` is one of LOG_FORMS.
  *read(octets, form) {
    this.call('start', form);
    for (const taken of this.takes(octets, this.batch)) yield [this.verdicts(), taken / octets.length];
    this.call('end');
    for (let found = null; found === null || found.length > 0;) {
      this.call('read', BigInt(this.piece), 0n, BigInt(this.batch));
      found = this.verdicts();
      yield [found, 1];
    }
  }

  // By which forms lines were read: the text before the octets of the first line, as it is shown, and how many lines there are.
  forms() {
    const { library, machine } = this, decoder = new TextDecoder();
    this.call('forms', BigInt(this.list));
    const { count, forms } = library.read('logFormList', this.list);
    return Array.from({ length: count }, (_, index) => {
      const one = library.read('logReadAs', forms + index * STRUCTS.logReadAs.size);
      const front = decoder.decode(machine.octets(one.front, one.front_length)).replace(UNSEEN, '').replace(ACTS, shownAs);
      return { front, lines: Number(one.lines), damaged: Number(one.damaged), isEcho: one.is_echo !== 0 };
    }).filter(({ lines }) => lines > 0);
  }

  // The verdicts of the batch, each with copies of its frames, and with where their octets are written: a line, and the indexes of its
  // first character and of the one after the last.
  verdicts() {
    const { library, machine } = this, batch = library.read('logBatch', this.batch), found = [];
    const next = (name, field) => library.read(name, (batch[field] += STRUCTS[name].size) - STRUCTS[name].size);
    for (let index = 0; index < batch.verdict_count; index++) {
      const verdict = next('logVerdict', 'verdicts'), frames = [], places = [];
      for (let count = 0; count < verdict.frames; count++, batch.lengths += 2) {
        const start = batch.octets;
        batch.octets += machine.data.getUint16(batch.lengths, true);
        frames.push(machine.all.slice(start, batch.octets));
      }
      for (let count = 0; count < verdict.places; count++) places.push(next('logPlace', 'places'));
      // A time in seconds.
      const { kind, reason, said, header, foreign, time_kind: timeKind } = verdict, time = timeKind === LOG_TIMES.noTime ? null : Number(verdict.time) / 1e6;
      const [address, size] = header > 0 ? [verdict.address, 0] : [undefined, verdict.control];
      found.push({ kind, reason, said, foreign, size, line: Number(verdict.line), time, timeKind, address, frames, places });
    }
    return found;
  }
}
