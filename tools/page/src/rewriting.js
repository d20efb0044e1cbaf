// Logs of which the reader says how they are written: their lines are written anew, as the library finds frames in any log.

import { LOG_FORMS } from './constants.js';
import { fromHex, hexText, inLines } from './hex.js';
import { linesOf, octetsOf } from './reader.js';
import { each, part } from './slices.js';

const FLAGS = 0x7e, HEADER = 2, DUMPED = 16;
// The octets at the end of a line, as hexadecimal digits of two each.
export const AT_END = /(?<![0-9A-Za-z])(?:(?:0x)?[0-9A-Fa-f]{2}[ ,:;|-]*)+\s*$/;
// What a line without octets becomes: no line goes away.
const NO_FRAME = '-';

export const digitsOf = (text) => text.replace(/0x|\\x|[^0-9a-f]/gi, '');

// Without the flags, the address and the control octet.
function withoutFraming(line) {
  const [found] = AT_END.exec(line) || [];
  if (found === undefined) return NO_FRAME;
  let octets = fromHex(digitsOf(found));
  while (octets[0] === FLAGS) octets = octets.subarray(1);
  while (octets.at(-1) === FLAGS) octets = octets.subarray(0, -1);
  return line.slice(0, -found.length) + hexText(octets.subarray(HEADER));
}

// What an expression finds in a line: the group `octets`, and perhaps `time` and `dir`. Python names a group by `(?P<`.
function byPattern(pattern) {
  const expression = new RegExp(pattern.replaceAll('(?P<', '(?<'));
  return (line) => {
    const { octets, time = '', dir = '' } = (expression.exec(line) || {}).groups || {};
    return octets === undefined ? NO_FRAME : `${time} ${dir} ${digitsOf(octets)}`;
  };
}

// A row of a file that is no text.
const dumped = (file, row) => hexText(file.subarray(row * DUMPED, (row + 1) * DUMPED));

// The ways that a reader may choose, and their words.
export const REWRITINGS = { unchecked: 'SDLC frames, without their check', pattern: 'As an expression finds it', octets: 'A binary file of messages without flags' };

// The octets of a file as they are read if it is written in this way.
export function* rewritten(file, way, pattern) {
  const isText = way !== 'octets', lines = isText ? yield* part(0, 0.2, linesOf(yield* part(0, 0.1, octetsOf(file)), LOG_FORMS.auto)) : [];
  const write = way === 'pattern' ? byPattern(pattern) : withoutFraming, made = [];
  yield* part(0.2, 1, each(isText ? lines.length : Math.ceil(file.length / DUMPED), (index) => {
    made.push(isText ? lines[index].trim() && write(lines[index]) : dumped(file, index));
  }));
  return new TextEncoder().encode(inLines(made));
}
