// What a file is in which no message was found, by how it begins, and what to do. Written by tools/generate-messages.

export const FILES = {
  empty: { begins: /^\s*$/, is: 'an empty file', act: '' },
  capture: { begins: /^(?:\xd4\xc3\xb2\xa1|\xa1\xb2\xc3\xd4|\x4d\x3c\xb2\xa1|\xa1\xb2\x3c\x4d|\n\r\r\n)/, is: 'a capture of packets, and no UDP datagram in it is a message', act: 'Wireshark reads messages that come in other ways, by the dissector of tools/wireshark' },
  gzip: { begins: /^\x1f\x8b/, is: 'a file that gzip packed', act: 'unpack it first' },
  xz: { begins: /^\xfd7zXZ\0/, is: 'a file that xz packed', act: 'unpack it first' },
  bzip2: { begins: /^BZh[1-9]1AY/, is: 'a file that bzip2 packed', act: 'unpack it first' },
  zst: { begins: /^\x28\xb5\x2f\xfd/, is: 'a file that zstd packed', act: 'unpack it first' },
  zip: { begins: /^PK\x03\x04/, is: 'a zip archive, or a spreadsheet or document that is packed as one', act: 'unpack it first, or save it as text' },
  script: { begins: /^fio2070 script /, is: 'a script for fio2070 simulate', act: 'the view Play runs it' },
  record: { begins: /^record \d+\n/, is: 'a record, which fio2070 record wrote of a log', act: 'open the log itself' },
  binary: { begins: /^(?!\xff\xfe|\xfe\xff)[\s\S]*\0/, is: 'a binary file', act: 'no message is sure in its octets; if it is what a line carried, say so at “How is it written?”' },
};
