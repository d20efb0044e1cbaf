// The proved library as a WebAssembly machine: its memory, and addresses in it that the page may write to.
//
// Two builds are tried in turn: the one with addresses of 64 bits, as it was proved, and the same lowered to 32 bits for
// browsers that have no such memory. In both an address is passed as a BigInt and a struct has the same layout.

import { fromBase64 } from './hex.js';

const PAGE = 65536;

class Machine {
  constructor(exports, build) {
    Object.assign(this, { exports, build, end: Number(exports.__heap_base.value) });
    this.reserve(0);
  }

  // Reserves `size` octets for the life of the page, and returns their address. The library itself never makes the memory grow, and so the
  // views of all of it hold until the next call.
  reserve(size) {
    const address = (this.end + 15) & ~15, { memory } = this.exports, missing = Math.ceil((address + size - memory.buffer.byteLength) / PAGE);
    this.end = address + size;
    if (missing > 0) memory.grow(this.build.bits === 64 ? BigInt(missing) : missing);
    Object.assign(this, { data: new DataView(memory.buffer), all: new Uint8Array(memory.buffer) });
    return address;
  }

  // The octets at an address, until the memory next grows.
  octets(address, size) {
    return this.all.subarray(address, address + size);
  }
}

// The octets of data that is in the page deflated.
export async function inflated(data) {
  const stream = new Blob([fromBase64(data)]).stream().pipeThrough(new DecompressionStream('deflate'));
  return new Uint8Array(await new Response(stream).arrayBuffer());
}

// Starts the first build that this browser can run; an Error says why none could.
export async function startMachine(builds) {
  const reasons = [];
  for (const build of builds) {
    try {
      const { instance } = await WebAssembly.instantiate(await inflated(build.deflated), {});
      return new Machine(instance.exports, build);
    } catch (reason) {
      reasons.push(build.bits + ' bits: ' + reason.message);
    }
  }
  throw new Error(reasons.join('; '));
}
