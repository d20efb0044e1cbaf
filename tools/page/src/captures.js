// Files of captured packets, pcap and pcapng, as the lines of a log: a line for each packet, with its number as Wireshark has it. The
// line has the time, for a UDP datagram a word for its two ends and its octets, for a packet of USB (usb.js) a word for its adapter and the
// octets that this sent or heard, and else what the packet is. bindings/python/fiolog/captures.py does the same.

import { FILES } from './files.js';
import { asLatin, hexText, inLines } from './hex.js';
import { Adapters, USB_LINKS, USB_TEXT } from './usb.js';

// How many steps a second has.
const MICRO = 10n ** 6n, NANO = 10n ** 9n, MAGICS = { 0xa1b2c3d4: MICRO, 0xa1b23c4d: NANO };
const BLOCKS = { section: 0x0a0d0d0a, interface: 1, simple: 3, packet: 6 }, LOW_OF_ORDER = 0x4d;
// Options of interfaces and packets.
const OPTIONS = { resolution: 9, shift: 14, flags: 2 };
const UPPER_PDU = 252, DISSECTOR_NAME = 12;
const IP_TYPES = [0x0800, 0x86dd], VLANS = [0x8100, 0x88a8, 0x9100];
const UDP = 17, PART = 44, FURTHER_HEADERS = [0, 43, 44, 60];
const LOOPBACK_FAMILIES = [2, 10, 24, 28, 30];
// Pairs of ends that have a word of their own; after so many the words begin anew. No letter is a hexadecimal digit.
const LETTERS = 'ghijklmnopqrstuvwxyz', MOST_PAIRS = LETTERS.length ** 2;
const RECORDS_AT_ONCE = 256;
// No line of usbmon's text is longer.
const LONGEST_USB_LINE = 1024;
// With more octets the file is broken.
const MOST_OF_PACKET = 1 << 24;
const NOT_UDP = 'not UDP', NO_DATA = 'no data', CUT = 'octets lost: cut off', FRAGMENTED = 'octets lost: part of a packet', WRONG = 'octets lost: wrong length';
const ENDS_EARLY = 'octets lost: the file ends early', BROKEN = 'octets lost: the file is broken from here on';

// A number of two octets, the high one first; a RangeError if the octets of a packet end before it.
const wordAt = (data, place) => new DataView(data.buffer, data.byteOffset, data.length).getUint16(place);
const octetAt = (data, place) => new DataView(data.buffer, data.byteOffset, data.length).getUint8(place);

// What follows a type of Ethernet: the IP packet, or null for another one.
function ofEthernet(data, start) {
  let place = start + 2, kind = wordAt(data, start);
  for (; VLANS.includes(kind); place += 4) kind = wordAt(data, place + 2);
  return IP_TYPES.includes(kind) ? data.subarray(place) : null;
}

// The family is an octet, the first or the last of four.
function ofLoopback(data) {
  octetAt(data, 3);
  return LOOPBACK_FAMILIES.includes(data.subarray(0, 4).reduce((sum, octet) => sum + octet)) ? data.subarray(4) : null;
}

// The IP packet in a packet of a link type.
const itself = (data) => data;
const LINKS = { 0: ofLoopback, 1: (data) => ofEthernet(data, 12), 101: itself, 108: ofLoopback, 113: (data) => ofEthernet(data, 14),
  228: itself, 229: itself, 276: (data) => IP_TYPES.includes(wordAt(data, 0)) ? data.subarray(20) : null };

// The ends of an IP packet and its UDP datagram, or why it has none.
function datagramOf(data) {
  const version = octetAt(data, 0) >> 4;
  let start, length, part, protocol, ends;
  if (version === 4) {
    [start, length, part, protocol] = [4 * (data[0] & 15), wordAt(data, 2), wordAt(data, 6) & 0x3fff, octetAt(data, 9)];
    ends = [data.subarray(12, 16), data.subarray(16, 20)];
  } else if (version === 6) {
    [start, length, part, protocol] = [40, 40 + wordAt(data, 4), 0, octetAt(data, 6)];
    ends = [data.subarray(8, 24), data.subarray(24, 40)];
    while (FURTHER_HEADERS.includes(protocol) && part === 0) {
      if (protocol === PART) part = wordAt(data, start + 2) & 0xfff9;
      const next = octetAt(data, start);
      start += 8 + (protocol === PART ? 0 : 8 * octetAt(data, start + 1));
      protocol = next;
    }
  } else return { why: NOT_UDP };
  if (part !== 0) return { why: protocol === UDP || FURTHER_HEADERS.includes(protocol) ? FRAGMENTED : NOT_UDP };
  return protocol === UDP ? { ends, datagram: data.subarray(start, length || data.length) } : { why: NOT_UDP };
}

// A time as seconds with nine digits below the point: an odd count of digits is no octets.
function clock(time, { steps, shift }) {
  const whole = 10n ** 9n, count = time * whole / steps + shift * whole;
  return count < 0n ? '0.000000000' : `${count / whole}.${String(count % whole).padStart(9, '0')}`;
}

// Makes lines of the octets of a capture file.
class PacketLines {
  constructor(file) {
    Object.assign(this, { file, view: new DataView(file.buffer, file.byteOffset, file.length), isLow: null, steps: 0n, interfaces: [], pairs: new Map(), adapters: new Adapters(),
      lines: [], isBroken: false });
  }

  *read() {
    let place = 0;
    for (let length = 1, count = 0; length > 0; place += length, count++) {
      if (count % RECORDS_AT_ONCE === 0) yield place / this.file.length;
      length = this.isLow === null ? this.begin() : this.steps > 0n ? this.record(place) : this.block(place);
    }
    if (!this.isBroken && place < this.file.length) this.lines.push(ENDS_EARLY);
    return new TextEncoder().encode(inLines(this.lines));
  }

  word(place) {
    return this.view.getUint32(place, this.isLow);
  }

  // Reads the order of the octets and, for pcap, its header, of which it returns the length.
  begin() {
    if (this.file.length < 24) return 0;
    for (this.isLow of [true, false]) {
      const magic = this.word(0);
      if (magic in MAGICS) {
        this.steps = MAGICS[magic];
        this.interfaces = [{ link: this.word(20) & 0xffff, steps: this.steps, shift: 0n, snap: this.word(16) }];
        return 24;
      }
      if (magic === BLOCKS.section) return this.block(0);
    }
    return this.breakOff();
  }

  // Reads a packet of pcap, and returns its length; 0 if it is not whole.
  record(place) {
    const { file } = this;
    if (file.length < place + 16) return 0;
    const size = this.word(place + 8);
    if (size > MOST_OF_PACKET) return this.breakOff();
    if (file.length < place + 16 + size) return 0;
    this.add(0, BigInt(this.word(place)) * this.steps + BigInt(this.word(place + 4)), file.subarray(place + 16, place + 16 + size), this.word(place + 12) > size);
    return 16 + size;
  }

  // Reads a block of pcapng, and returns its length; 0 if it is not whole.
  block(place) {
    const { file } = this;
    if (file.length < place + 12) return 0;
    const kind = this.word(place);
    if (kind === BLOCKS.section) Object.assign(this, { isLow: file[place + 8] === LOW_OF_ORDER, interfaces: [] });
    const length = this.word(place + 4);
    if (length < 12 || length % 4 !== 0 || length > MOST_OF_PACKET) return this.breakOff();
    if (file.length < place + length) return 0;
    return this.takes(kind, place + 8, place + length - 4) ? length : this.breakOff();
  }

  breakOff() {
    this.isBroken = true;
    this.lines.push(BROKEN);
    return 0;
  }

  // Takes the body of a block, from `start` to `end`; false if it is broken.
  takes(kind, start, end) {
    const { file } = this, room = end - start;
    if (kind === BLOCKS.interface) return room >= 8 && this.takesInterface(start, end);
    if (kind === BLOCKS.packet) {
      if (room < 20) return false;
      const size = this.word(start + 12), flags = this.options(start + 20 + size + (-size & 3), end).get(OPTIONS.flags);
      if (size > room - 20 || flags && flags.length !== 4) return false;
      const way = flags ? ['', '< ', '> ', ''][flags[this.isLow ? 0 : 3] & 3] : '';
      const time = BigInt(this.word(start + 4)) << 32n | BigInt(this.word(start + 8));
      return this.add(this.word(start), time, file.subarray(start + 20, start + 20 + size), this.word(start + 16) > size, way);
    }
    if (kind !== BLOCKS.simple) return true;
    if (room < 4 || this.interfaces.length === 0) return false;
    const whole = this.word(start), size = Math.min(whole, this.interfaces[0].snap || room, room - 4);
    return this.add(0, null, file.subarray(start + 4, start + 4 + size), whole > size);
  }

  takesInterface(start, end) {
    const found = this.options(start + 8, end), [step] = found.get(OPTIONS.resolution) || [6], shift = found.get(OPTIONS.shift) || new Uint8Array(8);
    if (step === undefined || shift.length !== 8) return false;
    this.interfaces.push({ link: this.view.getUint16(start, this.isLow), steps: step & 128 ? 2n ** BigInt(step & 127) : 10n ** BigInt(step),
      shift: new DataView(shift.buffer, shift.byteOffset, 8).getBigInt64(0, this.isLow), snap: this.word(start + 4) });
    return true;
  }

  // The options of a block, by their numbers.
  options(start, end) {
    const found = new Map();
    for (let place = start; place + 4 <= end;) {
      const number = this.view.getUint16(place, this.isLow), length = this.view.getUint16(place + 2, this.isLow);
      if (number === 0) break;
      found.set(number, this.file.subarray(place + 4, Math.min(place + 4 + length, end)));
      place += 4 + length + (-length & 3);
    }
    return found;
  }

  // Adds the line of a packet; false if no interface has this index. `way` is what a pcapng file says of its direction.
  add(index, time, data, isCut, way = '') {
    const from = this.interfaces[index];
    if (from === undefined) return false;
    let text;
    try {
      text = from.link === UPPER_PDU ? this.upper(data, way) : USB_LINKS.includes(from.link) ? this.usb(this.adapters.read(from.link, this.isLow, data)) : this.udp(from.link, data);
    } catch (reason) {
      if (!(reason instanceof RangeError)) throw reason;
      text = isCut ? CUT : WRONG;
    }
    this.lines.push(time === null ? text : `${clock(time, from)} ${text}`);
    return true;
  }

  udp(link, data) {
    const packet = link in LINKS ? LINKS[link](data) : null, { why, ends, datagram } = packet === null ? { why: NOT_UDP } : datagramOf(packet);
    if (why) return why;
    const ports = [wordAt(datagram, 0), wordAt(datagram, 2)], length = wordAt(datagram, 4);
    if (length < 8 || length > datagram.length) throw new RangeError();
    return `${this.wordOf('udp', ends.map((end, at) => `${hexText(end)}:${ports[at]}`).sort().join())} ${hexText(datagram.subarray(8, length)).toLowerCase()}`;
  }

  usb({ device, octets }) {
    return octets === null ? NO_DATA : `${this.wordOf('usb', device)} ${hexText(octets).toLowerCase()}`;
  }

  // The word for two ends, by their addresses and ports, or for an adapter, by its bus and its number there.
  wordOf(kind, pair) {
    if (!this.pairs.has(pair) && this.pairs.size === MOST_PAIRS) this.pairs.clear();
    if (!this.pairs.has(pair)) this.pairs.set(pair, this.pairs.size);
    const index = this.pairs.get(pair);
    return `${kind}${LETTERS[Math.floor(index / LETTERS.length)]}${LETTERS[index % LETTERS.length]}`;
  }

  // The text of a message that `fiolog convert` wrote.
  upper(data, way) {
    let name = '', place = 0;
    for (let tag = wordAt(data, 0); tag !== 0; tag = wordAt(data, place)) {
      const length = wordAt(data, place + 2);
      if (tag === DISSECTOR_NAME) name = asLatin(data.subarray(place + 4, place + 4 + length));
      place += 4 + length;
    }
    wordAt(data, place + 2);
    return name.replace(/\0+$/, '') === 'fio2070' ? `${way}${hexText(data.subarray(place + 4)).toLowerCase()}` : NOT_UDP;
  }
}

// Makes lines of the text of usbmon, one of each.
class TextLines extends PacketLines {
  *read() {
    const texts = asLatin(this.file).split('\n'), last = texts.pop();
    for (const [count, text] of [...texts, ...last ? [last] : []].entries()) {
      if (count % RECORDS_AT_ONCE === 0) yield count / texts.length;
      this.lines.push(this.ofText(text));
    }
    return new TextEncoder().encode(inLines(this.lines));
  }

  ofText(line) {
    const found = USB_TEXT.exec(line);
    if (found === null) return line.trim() ? CUT : '';
    let text;
    try {
      text = this.usb(this.adapters.readText(found));
    } catch (reason) {
      if (!(reason instanceof RangeError)) throw reason;
      text = CUT;
    }
    return `${clock(BigInt(found[1]), { steps: MICRO, shift: 0n })} ${text}`;
  }
}

// Whether a file is a capture of packets.
export const isCapture = (file) => FILES.capture.begins.test(asLatin(file.subarray(0, 4))) || USB_TEXT.test(asLatin(file.subarray(0, LONGEST_USB_LINE)).split('\n', 1)[0]);

// The lines of a capture file, in UTF-8. A text of usbmon begins with a hexadecimal digit, and no other one does.
export const linesOfCapture = (file) => new (/^[0-9a-f]/.test(asLatin(file.subarray(0, 1))) ? TextLines : PacketLines)(file).read();
