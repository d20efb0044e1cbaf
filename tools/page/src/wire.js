// The library's decoders of what a line carried: octets with octet stuffing, or bits with bit stuffing.

import { KeptReader } from './library.js';

export const SAYS = { nothing: 0, message: 1, other: 2, damaged: 3 };
// The address and control octet of a module, and those of any.
export const OWN = { address: 0x14, control: 0x83 };
export const ANY = { address: 256, control: 256 };

class Wire extends KeptReader {
  // A decoder of octets or, if `isOfBits`, of bits: an octet each, of which the lowest bit counts.
  constructor(library, isOfBits = false) {
    super(library, isOfBits ? 'wire_bits' : 'wire', isOfBits ? 'wireBits' : 'wire');
    this.heard = this.machine.reserve(1);
  }

  // Begins a line, before its first flag; frames with this address and control octet are one's own.
  start({ address, control }) {
    this.call('start', address, control);
    // How many octets, or bits, were read.
    this.count = 0;
    return this;
  }

  // What the next octets, or bits, say: at each flag that ends something, a kind of SAYS and, of a frame, address, control octet and
  // message, and how many octets or bits of the line were read.
  *read(line) {
    for (const taken of this.takes(line, this.heard)) {
      const kind = this.machine.all[this.heard];
      if (kind !== SAYS.nothing) yield { kind, end: this.count + taken, ...this.frame() };
    }
    this.count += line.length;
  }

  // The frame that is held.
  frame() {
    const length = Number(this.call('message_length')), { octets } = this.library.read(this.struct, this.place);
    const [address, control, ...message] = this.machine.octets(octets, length > 0 ? length + 2 : 0);
    return { address, control, message: Uint8Array.from(message) };
  }
}

// A decoder that is kept under a name; that of `bits` is one of bits.
export function wireOf(library, name) {
  library.wires ||= new Map();
  if (!library.wires.has(name)) library.wires.set(name, new Wire(library, name === 'bits'));
  return library.wires.get(name);
}
