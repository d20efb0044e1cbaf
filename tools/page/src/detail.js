// One message whole: its words and octets, with what belongs together marked under the pointer and under the keys.

import { seamWords } from './answer.js';
import { BITS } from './bits.js';
import { dateOf, laterWords } from './clocks.js';
import { capital, element, sentence } from './dom.js';
import { fieldsOf, wordsIn } from './fields.js';
import { hexText } from './hex.js';
import { LOG_SIDES } from './constants.js';
import { bitsOf, doubtOf, entryOf, RESTART_HELP, ruleWords, sourceWords } from './rules.js';

const SIDES_IN_WORDS = { [LOG_SIDES.noSide]: 'No direction', [LOG_SIDES.fromCpu]: 'Sent by the CPU', [LOG_SIDES.fromModule]: 'Heard by the CPU' };
const LONGEST = 4096;

// Marks the words and the octets of the same field.
function markTogether(octets, words, fields) {
  const mark = (places) => {
    words.forEach((it, place) => it.classList.toggle('is-marked', places.includes(place)));
    octets.forEach((it, place) => it.classList.toggle('is-marked', fields[place].some((field) => places.includes(field))));
  };
  const follow = (it, places) => {
    for (const name of ['pointerenter', 'focus']) it.addEventListener(name, () => mark(places));
    for (const name of ['pointerleave', 'blur']) it.addEventListener(name, () => mark([]));
  };
  octets.forEach((it, place) => follow(it, fields[place]));
  words.forEach((it, place) => follow(it, [place]));
}

// The name of a word: the word before it, as in `block 5`.
const nameOf = (all, place) => place % 2 === 0 ? all[place] : all[place - 1] + ' ' + all[place];

// `broken` is the line of the entry that breaks a rule on content.
function linesWith(lines, spans, broken) {
  const list = element('ol', { 'aria-label': 'Words' });
  let place = 0;
  for (const [number, line] of lines.entries()) {
    const item = element('li', { class: number === broken && 'reason' });
    item.append(/^ */.exec(line)[0]);
    line.trim().split(' ').forEach((_, index) => item.append(...(index ? [' '] : []), spans[place++]));
    list.append(item);
  }
  return list;
}

// An octet. What it is read as is its name to a screen reader.
function octetSpan(octet, index, names) {
  const digits = hexText([octet]), title = names.join(', ');
  return element('span', { role: 'img', tabindex: index === 0 ? '0' : '-1', title, 'aria-label': title ? `${digits} ${title}` : digits }, digits);
}

// The element of a message of a log.
export function detailOf(log, place, textOf) {
  const lines = log.written(place), octets = log.octets(place).slice(0, LONGEST), all = wordsIn(lines), isMessage = !log.isFaulty[place];
  const fields = isMessage ? fieldsOf(octets, lines, textOf) : Array.from(octets, () => []);
  const wordSpans = all.map((word) => element('span', {}, word));
  const octetSpans = Array.from(octets, (octet, index) => octetSpan(octet, index, fields[index].map((field) => nameOf(all, field))));
  if (isMessage) markTogether(octetSpans, wordSpans, fields);
  const grid = element('div', { class: 'grid', role: 'group', 'aria-label': 'Octets', onkeydown: (event) => toOctet(event, octetSpans) },
    ...octetSpans.flatMap((it) => [it, '\u200b']));
  const content = log.content(place), entry = content ? entryOf(log, place, content) : -1;
  return element('div', {}, element('h2', {}, capital(log.where(place))), soft(SIDES_IN_WORDS[log.directions[place]] + timesOf(log, place)), ...reasonOf(log, place),
    ...isMessage ? bitWords(octets[0], lines[0]).map((words) => soft(words)) : [], linesWith(lines, wordSpans, entry >= 0 ? entry + 1 : -1),
    ...octets.length > 0 ? [element('h3', {}, 'Octets'), grid] : []);
}

const soft = (words, id = false) => element('p', { class: 'soft', id }, words);

// What is wrong with a message or its line, and what its rule says.
function reasonOf(log, place) {
  const breach = log.breaches.get(place), reason = log.reason(place) || doubtOf(log, place);
  const seam = log.seams.has(place) ? [element('p', { class: 'doubt' }, sentence(seamWords(log.seams.get(place))))] : [];
  if (!breach) return reason ? [element('p', { class: 'doubt' }, sentence(reason)), ...log.restarts.has(place) ? [soft(RESTART_HELP)] : seam] : seam;
  return [...seam, element('p', { class: 'reason' }, `Breaks ${reason}.`), soft(sourceWords(breach), 'rule-source'),
    element('details', {}, element('summary', {}, 'What this rule says'), ...ruleWords(breach).map((words) => soft(words)))];
}

// What the bits that are 1 say, of the flags or the status that the first line of a message has.
function bitWords(code, line) {
  const words = line.split(' '), value = parseInt(words[words.indexOf(BITS[code]?.word) + 1], 16);
  return bitsOf(code, value).map(([letter, says]) => `${letter}: ${says}`);
}

// The keys left and right go from octet to octet.
function toOctet(event, spans) {
  const by = { ArrowRight: 1, ArrowLeft: -1 }[event.key];
  const next = spans[spans.indexOf(event.target) + (by || 0)];
  if (!by || !next) return;
  event.preventDefault();
  next.tabIndex = 0;
  event.target.tabIndex = -1;
  next.focus();
}

// The time of a message, and how long after the command above it came.
function timesOf(log, place) {
  if (!log.hasTimes || Number.isNaN(log.times[place])) return '';
  const date = dateOf(log.times[place], log.timeKinds[place]), text = `, at ${log.clockOf(place)}${date && ' on ' + date}`;
  const isAnswer = place > 0 && log.directions[place] === LOG_SIDES.fromModule && log.directions[place - 1] === LOG_SIDES.fromCpu;
  return isAnswer && !Number.isNaN(log.times[place - 1]) ? `${text}, ${laterWords(log.times[place - 1], log.times[place])}` : text;
}
