// Packets of USB as the lines of a log: what a serial adapter sent and heard, as usbmon of Linux or USBPcap of Windows captured it.
// bindings/python/fiolog/usb.py does the same.

import { fromHex } from './hex.js';

// The link types of captures: usbmon with its short header and with its long one, and USBPcap.
const USBMON = 189, LONG_USBMON = 220, USBPCAP = 249;
export const USB_LINKS = [USBMON, LONG_USBMON, USBPCAP];
const BULK = 3, TO_HOST = 0x80, COMPLETION = 0x43;
// Of an adapter of FTDI each packet begins with two octets: the modem's lines, of which the low four bits are always 1, and the state of its
// buffers, of which these bits are no fault. Packets have so many octets.
const FTDI_LINES = 1, FTDI_BUFFERS = 0x60, FTDI_PACKETS = { short: 64, long: 512 };
// How what a line carries begins: with a type of a command or of an answer, or with a flag.
const isBeginning = (octet) => octet >= 49 && octet <= 60 || octet >= 177 && octet <= 188 || octet === 0x7e;

// A line of usbmon's text: microseconds, whether a transfer begins or ends, its kind and direction, bus, device, and its octets.
export const USB_TEXT = /^[0-9a-f]{8,16} (\d+) ([SCE]) ([CZIB])([io]):(?:(\d+):)?(\d+):\d+ \S+(?: (\d+)(?: = ([0-9a-f ]*))?.*)?\s*$/;

// The transfer of a packet, the endpoint, the adapter, whether it has data, how many octets these are in all, and those that are here; a
// RangeError if the packet ends before.
function headOf(link, isLow, data) {
  const view = new DataView(data.buffer, data.byteOffset, data.length);
  const isToHost = (endpoint) => (endpoint & TO_HOST) !== 0;
  if (link === USBPCAP) {
    const length = view.getUint32(23, true), size = view.getUint16(0, true), endpoint = view.getUint8(21);
    return { transfer: view.getUint8(22), endpoint, device: `${view.getUint16(17, true)}.${view.getUint16(19, true)}`, isOfData: (view.getUint8(16) & 1) === 1 === isToHost(endpoint),
      length, octets: data.subarray(size, size + length) };
  }
  const size = link === USBMON ? 48 : 64, endpoint = view.getUint8(10);
  view.getUint8(size - 1);
  return { transfer: view.getUint8(9), endpoint, device: `${view.getUint16(12, isLow)}.${view.getUint8(11)}`,
    isOfData: view.getUint8(15) === 0 && view.getUint8(8) === COMPLETION === isToHost(endpoint), length: view.getUint32(32, isLow), octets: data.subarray(size, size + view.getUint32(36, isLow)) };
}

// Whether octets begin as a packet of FTDI does.
const hasState = (data) => data.length >= 2 && (data[0] & 15) === FTDI_LINES && (data[1] & ~FTDI_BUFFERS) === 0;

// What an adapter of FTDI heard: without the octets with which each packet begins.
function heard(data) {
  const size = hasState(data.subarray(FTDI_PACKETS.short, FTDI_PACKETS.short + 2)) ? FTDI_PACKETS.short : FTDI_PACKETS.long;
  return data.filter((octet, place) => place % size >= 2);
}

// The adapters of a capture: which of them are of FTDI, as far as that is known.
export class Adapters {
  constructor() {
    this.areFtdi = new Map();
  }

  // The adapter of a packet, and what it sent or heard there, null if the packet has none of that. A RangeError if the packet ends before
  // that does.
  read(link, isLow, data) {
    const { transfer, endpoint, device, isOfData, length, octets } = headOf(link, isLow, data);
    return { device, octets: transfer === BULK && isOfData ? this.carried(device, (endpoint & TO_HOST) !== 0, length, octets) : null };
  }

  // The same of a line of usbmon's text, as USB_TEXT finds it.
  readText([, , event, kind, way, bus = '', number, length = 0, words = '']) {
    const device = `${bus}.${number}`, isOfData = kind === 'B' && ['So', 'Ci'].includes(event + way), digits = words.replaceAll(' ', '');
    if (isOfData && digits.length % 2 === 1) throw new RangeError();
    return { device, octets: isOfData ? this.carried(device, way === 'i', Number(length), fromHex(digits)) : null };
  }

  // What an adapter sent or heard, of whose octets these are here; null if it was nothing.
  carried(device, isHeard, length, octets) {
    if (octets.length < length) throw new RangeError();
    const read = octets.length > 0 && isHeard && this.isFtdi(device, octets) ? heard(octets) : octets;
    return read.length > 0 ? read : null;
  }

  // Whether an adapter is of FTDI, by what it heard. An answer 177 and a command 49 may look like the state of one.
  isFtdi(device, data) {
    if (!this.areFtdi.has(device)) {
      const isSure = !isBeginning(data[0]) || data.length > 2 && isBeginning(data[2]);
      if (hasState(data) && !isSure) return false;
      this.areFtdi.set(device, hasState(data));
    }
    return this.areFtdi.get(device);
  }
}
