// What is said of a message: the rule that it breaks, what a breach or a restart means, what a rule says, what the bits of its status say,
// and why it is not judged.

import { seamWords } from './answer.js';
import { BITS } from './bits.js';
import { ADVANCE_BREACHES, CONTENT_RULES, INPUTS, RULES } from './constants.js';
import { BLOCK, FIRST_ANSWER, STATUS_BITS, WATCHDOG_ANSWER } from './library.js';
import { BREACHES, TERMS } from './log_words.js';

// The last rule on content that an entry breaks.
const LAST_OF_ENTRIES = CONTENT_RULES.findIndex((rule) => rule?.name === 'ignored');
// What was due and what came, by rule, if the library says both.
const DUE = {
  pair: (due, got) => `an answer ${due} was due, ${got} came`,
  number: (due, got) => `block ${due} was asked for, ${got} came`,
  advance: (due, got) => `block ${due} was due, ${got} came: ${ADVANCE_BREACHES[(got - due & 255) < 128 ? 'ahead' : 'behind'].replace('{due}', due)}`,
};

// The rule that is broken, and its name.
const brokenBy = ({ rule, isContent }) => (isContent ? CONTENT_RULES : RULES)[rule];
export const ruleOf = (breach) => brokenBy(breach).name;

// What the rule says that is broken, and what its words mean.
export function ruleWords(breach) {
  const { right, breach: words } = brokenBy(breach), terms = Object.entries(TERMS).filter(([term]) => new RegExp(`\\b${term}\\b`).test(right));
  return breach.isContent ? [`In a right link: ${right}`, ...terms.map((pair) => `${pair.join(': ')}.`)] : [`It is broken by a line that ${words}.`];
}

// The sources of the rule that is broken.
export function sourceWords(breach) {
  const [behaviour, layout] = brokenBy(breach).sources;
  return `Source: behaviour ${behaviour}, layout ${layout}.`;
}

// What shows a restart: an answer to a watchdog that was set before, any other by its stamp.
export const restartWords = (log, place) => log.codes[place] === WATCHDOG_ANSWER
  ? 'the module restarted, or forgot its watchdog: it says that none was set before'
  : 'the module restarted, or the stamp is wrong: its counter went back';

// What a restart means, and what to do.
export const RESTART_HELP = 'At a restart entries may be missing, and no gap mark says so. If the next answer 177 has P, the module was reset: look at its '
  + 'supply, and configure its inputs again.';

// What was due and what came, or what the breach means.
export function breachWords(log, place, breach) {
  const { has_due: hasDue, due, got } = breach, { name, breach: words } = brokenBy(breach), code = log.codes[place], status = log.status[place];
  if (breach.isContent) return contentWords(log, place, breach);
  if (hasDue) return DUE[name](due, got);
  if (name === 'readable' && log.isFaulty[place]) return log.words(place)[0];
  if (name === 'limits') return limitsWords(log, place);
  const more = BREACHES[name === 'sequence' && status & STATUS_BITS.again ? 'again' : name];
  return more ? more.replace('{code}', code).replace('{command}', code - FIRST_ANSWER) : 'this line ' + words;
}

// The index of the entry that breaks a rule on content; -1 if none does. Entries are the last items of a block, a gap mark is above
// them; an answer and the end of a block have none.
export function entryOf(log, place, { rule, items }) {
  return rule <= LAST_OF_ENTRIES ? items - (log.status[place] & STATUS_BITS.lost ? 1 : 0) : -1;
}

function contentWords(log, place, breach) {
  const entry = entryOf(log, place, breach), state = entry < 0 ? '' : log.octets(place)[3 + 3 * entry] >> 7;
  return brokenBy(breach).breach.replace('{input}', breach.input).replace('{state}', state);
}

// Which of the limits a block breaks.
function limitsWords(log, place) {
  const absent = log.words(place).map((line) => Number((/^ *input (\d+) /.exec(line) || [])[1])).find((input) => input >= INPUTS);
  if (absent !== undefined) return BREACHES.absent.replace('{input}', absent);
  return log.status[place] & STATUS_BITS.more ? BREACHES.more.replace('{count}', log.entries[place]) : BREACHES.lost;
}

// The bits of a block's status in few words; the detail has them in full.
const IN_SHORT = { C: 'more entries wait', F: 'entries were pushed out', E: 'sent again', G: 'a block number was left out' };

// The bits that are 1 in a value of the flags or the status of a type, F of a block first: their letters, and what they say.
export const bitsOf = (code, value) => (BITS[code]?.bits || []).filter(([, bit]) => (value & bit) !== 0).sort(([one], [other]) => (other === 'F') - (one === 'F'))
  .map(([letter, , says]) => [letter, says]);

// The same of a status, in few words.
export const statusNotes = (code, status) => BITS[code]?.word !== 'status' ? []
  : bitsOf(code, status).map(([letter, says]) => `${letter}: ${code === BLOCK && IN_SHORT[letter] || says}`);

// Why a frame is not judged, or a line gave none; empty if neither is so.
export const doubtOf = (log, place) => (log.damaged.get(place) || log.others.get(place) || { why: '' }).why;

export function noteOf(log, place) {
  const reason = log.reason(place), seam = log.seams.get(place), notes = statusNotes(log.codes[place], log.status[place]);
  if (reason) notes.unshift(reason);
  else if (seam?.cause) notes.push(seamWords({ ...seam, is_lost: 0 }));
  if (doubtOf(log, place)) notes.push(doubtOf(log, place));
  if (log.isUnanswered(place)) notes.push('no answer');
  return notes.join('; ');
}

// Whether a row of a log has a note.
export function hasNotes(log) {
  const { summary, status, codes } = log;
  return log.breaches.size + log.restarts.size + log.seams.size + log.damaged.size + log.others.size + summary.unanswered > 0
    || status.some((it, place) => it > 0 && statusNotes(codes[place], it).length > 0);
}
