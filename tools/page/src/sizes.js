// What is said of messages that this protocol has not, and that the library passes over: those of other types, and 180, 181, 55 and 183 of
// a module of another size.

import { LOG_KINDS } from './constants.js';
import { LINE } from './log_words.js';

// Those whose size depends on the module, and the answer to one of them.
const LEVELS = [180, 181], OUTPUTS = 55, OUTPUTS_ANSWER = 183;

// What is said of a line that is passed over, with a message of this type.
export const foreignText = (code) => LINE[[...LEVELS, OUTPUTS, OUTPUTS_ANSWER].includes(code) ? 'size' : 'type'].replace('{type}', code);

// The messages of modules of another size that are passed over.
export class Sizes {
  constructor() {
    // How many there are, by size and type.
    this.lines = new Map();
  }

  // Counts one, if a verdict has it.
  count({ kind, foreign, size }) {
    if (kind !== LOG_KINDS.passedOver || foreign === 0 || size === 0) return;
    if (!this.lines.has(size)) this.lines.set(size, { 180: 0, 181: 0, 55: 0 });
    this.lines.get(size)[foreign] += 1;
  }

  // What is said of these modules: of each size by the answers with its inputs, if there are any.
  get remarks() {
    return [...this.lines].sort(([one], [other]) => one - other).map(([size, lines]) => {
      const [raw, filtered] = LEVELS.map((code) => lines[code]), code = filtered + raw === 0 ? OUTPUTS : LEVELS[filtered < raw ? 0 : 1], count = lines[code];
      return LINE[code === OUTPUTS ? 'outputs' : 'inputs'].replace('{type}', code).replace('{octets}', `${size} octet${size > 1 ? 's' : ''}`)
        .replace('{lines}', count > 1 ? `each of ${count} lines` : 'a line').replace('{count}', 8 * size);
    });
  }
}
