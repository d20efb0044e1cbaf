// Which octets of a message carry which words of its text, found by asking the decoder: an octet is changed, the message
// is decoded again, and the first word that differs is the octet's. No layout is written down here.

const CHANGES = [0x01, 0x80];

// The words of a message's lines.
export const wordsIn = (lines) => lines.flatMap((line) => line.trim().split(' '));

// The words in which the texts of a message and of a changed one first differ, by how an octet is changed; none where that is no such
// message.
function fieldOf(words, octets, place, textOf) {
  const found = CHANGES.map((mask) => {
    const changed = octets.slice();
    changed[place] ^= mask;
    const others = wordsIn(textOf(fitted(changed, textOf)));
    return words.findIndex((word, index) => word !== others[index]);
  });
  return [...new Set(found.filter((index) => index > 0))];
}

// A changed message, made as long as the decoder says that it has to be.
function fitted(octets, textOf) {
  const [, needed = octets.length] = /^wrong length needed (\d+) /.exec(textOf(octets)[0]) || [], resized = new Uint8Array(Number(needed));
  resized.set(octets.subarray(0, resized.length));
  return resized;
}

// For each octet of a message the indexes of the words that it carries; the type, the first octet, carries the first.
export function fieldsOf(octets, lines, textOf) {
  const words = wordsIn(lines);
  return Array.from(octets, (_, place) => place === 0 ? [0] : fieldOf(words, octets, place, textOf));
}
