// Octets as hexadecimal digits, two each, and back; and of other texts.

const PAIRS_OF_DIGITS = Array.from({ length: 256 }, (_, octet) => octet.toString(16).padStart(2, '0'));

export const hexText = (octets) => Array.from(octets, (octet) => PAIRS_OF_DIGITS[octet]).join('');

// The octets of digits.
export function fromHex(digits) {
  return Uint8Array.from({ length: digits.length >> 1 }, (_, place) => parseInt(digits.slice(2 * place, 2 * place + 2), 16));
}

export const fromLetters = (text) => Uint8Array.from(text, (letter) => letter.charCodeAt(0));
export const fromBase64 = (text) => fromLetters(atob(text));

export const inLines = (lines) => lines.map((line) => line + '\n').join('');

// Octets as text, a character each.
export const asLatin = (octets) => Array.from(octets, (octet) => String.fromCharCode(octet)).join('');
