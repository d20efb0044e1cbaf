// The verdict on a log: the answer first, then what rules say, where the first breach, restart or seam is, and what was not judged, with
// the reason.

import { answerOf } from './answer.js';
import { WHY } from './constants.js';
import { capital, counted, sentence, withCommas } from './dom.js';
import { CAUSES, ENDS } from './judging.js';
import { POLL } from './library.js';
import { CURES, SIDES, SIGNS } from './log_words.js';
import { RESTART_HELP, ruleOf } from './rules.js';
import { stationText } from './stations.js';

// Its kind, as the style names it; the sentences of the answer, none for several stations; what rules say, and more on it; the place of the
// first breach, restart or seam (-1 if there is none); and sentences on what was not judged.
export function verdictOf(log) {
  return log.stations.size > 0 ? verdictApart(log) : verdictOfLink(log);
}

function verdictOfLink(log) {
  const { messages, badLines } = log.summary, readable = messages - badLines;
  const [kind, text, more = '', first = [...log.seams.keys(), -1][0]] = saidOf(log, readable);
  return { kind: kindWith(log, kind), answer: answerOf(log), text, more, first, notJudged: sentencesOf(log, readable > 0) };
}

// The kind of a verdict, of which rules say one: green only if it is known that nothing is lost.
function kindWith({ seams, counted: { lost, restarts, blocks } }, kind) {
  if (kind === 'broken' || kind === 'none') return kind;
  if (lost > 0) return 'lost';
  if (restarts > 0 || kind === 'restarted') return 'restarted';
  return seams.size > 0 ? 'missing' : kind !== 'unjudged' && blocks < 2 ? 'few' : kind;
}

// The kinds, the worst first, and what is said of this many stations that have it.
const APART = {
  broken: (some) => `A rule is broken at ${some}`,
  lost: (some) => `Transitions are lost at ${some}`,
  restarted: (some) => `The module restarted at ${some}`,
  missing: (some) => `Transitions may be missing at ${some}`,
  unjudged: (some) => `Little could be judged at ${some}`,
  few: (some) => `Too few blocks to say at ${some}`,
  partly: (some, all) => `Nothing is lost, and no rule broken, at ${all}`,
  good: (some, all) => `Nothing is lost, and no rule broken, at ${all}`,
};

// The verdict on a line of several stations has that on each, by its address.
function verdictApart(log) {
  const verdicts = [...log.stations.values()].map(({ verdict }) => verdict), kind = Object.keys(APART).find((one) => verdicts.some((verdict) => verdict.kind === one));
  const all = counted(verdicts.length, 'station'), some = `${verdicts.filter((verdict) => verdict.kind === kind).length} of ${all}`;
  const [first = -1] = [...log.breaches.keys(), ...log.restarts, ...log.seams.keys()], isPart = kind === 'good' && log.others.size > 0;
  return { kind: isPart ? 'partly' : kind, answer: [], text: `${APART[kind](some, all)}, each judged by itself.`, more: '', first, notJudged: sentencesOf(log, true),
    stations: [...log.stations].map(([address, alone]) => [stationText(address), wordsOf(alone)]) };
}

// What is said of a station in short.
function wordsOf({ isFit, logged, summary, verdict: { answer, text, more } }) {
  const silent = isFit && sentence(SIDES[logged] || '');
  return `${counted(summary.messages - summary.badLines, 'message')}. ${answer.join(' ')} ${text}${more}${silent ? ` ${silent}` : ''}`;
}

// The kind, the sentence, more, and the place, where so many messages are sure.
function saidOf(log, readable) {
  const { messages, broken, restarts, badLines } = log.summary, judged = log.judging.unjudged.reduce((rest, count) => rest - count, readable);
  const compared = judged - log.judging.begunAgain, isLittle = 2 * compared < messages;
  const only = compared === 0 ? 'No message could be judged.' : `Only ${counted(compared, 'message')} of ${withCommas(messages)} could be judged.`;
  const couldBe = isLittle ? only : `No rule is broken in the ${counted(judged, 'message')} that could be judged.`;
  if (readable === 0) return ['none', 'No message was found.'];
  if (!log.isFit) return ['unjudged', sentence(SIGNS[log.sign] || SIDES[log.logged])];
  if (broken > 0) return brokenOf(log, readable);
  if (restarts > 0) return ['restarted', restartsIn(log), `. ${couldBe} ${RESTART_HELP}`, [...log.restarts][0]];
  if (isLittle) return ['unjudged', only, compared > 0 ? ` No rule is broken in ${compared === 1 ? 'it' : 'them'}.` : ''];
  const isPart = badLines > 0 || judged < readable || log.others.size > 0 || log.logged !== '';
  return isPart ? ['partly', couldBe] : ['good', `No rule is broken in ${counted(judged, 'message')}.`];
}

function brokenOf(log, readable) {
  const { messages, broken, restarts, faults } = log.summary, [[place, breach]] = log.breaches;
  if (faults === messages && readable > 1) {
    return ['broken', `None of the ${withCommas(readable)} lines with octets is a message`,
      `; ${log.where(place)}: ${log.words(place)[0]}. Perhaps the log is of another link, or the bits of its octets are in reverse order.`, place];
  }
  const rule = `${log.where(place)} breaks the rule ${ruleOf(breach)}`, whose = log.isSent(place) ? 'CPU' : 'module', cure = CURES[ruleOf(breach)];
  return ['broken', broken === 1 ? `${capital(whose)}: ${rule}` : `${counted(broken, 'message')} of ${withCommas(readable)} break a rule, the first one of the ${whose}: ${rule}`,
    `: ${log.meaning(place)}.${cure ? ` ${cure}` : ''}${restarts > 0 ? ` ${restartsIn(log)}. ${RESTART_HELP}` : ''}`, place];
}

// Where the module restarted.
function restartsIn(log) {
  const [place] = log.restarts, { size } = log.restarts, where = `${log.where(place)}: ${log.meaning(place)}`;
  return size === 1 ? capital(where) : `${counted(size, 'restart')}. The first: ${where}`;
}

// What was not judged, and why.
function sentencesOf(log, isJudged) {
  const { hasDirections, end, summary: { possible, badLines }, judging: { unjudged, losses } } = log;
  const { [WHY.aboveCommand]: aboveCommand, [WHY.unheard]: unheard, [WHY.load]: belowLoads } = unjudged;
  const [first] = log.breaches.keys(), poll = log.codes.indexOf(POLL), unread = badLines - possible;
  // How many, with the verb; nothing of what the log has none of.
  const said = (count, noun, words) => count > 0 && `${counted(count, noun)} ${words.replace(/\bare\b/, count === 1 ? 'is' : 'are')}.`;
  return [
    said(unread, 'line', 'could not be read as a message and are not judged'),
    possible > 0 && `${counted(possible, 'line')} may be a message, and ${possible === 1 ? 'has' : 'have'} no form of this log.`,
    said(log.others.size, 'frame', 'with another address are not judged'),
    log.isFit && sentence(SIDES[log.logged] || ''),
    log.isFit && sentence(SIGNS[log.sign]),
    said(aboveCommand, 'message', 'above the first command are not judged: what was asked is not in the log'),
    said(unheard, 'message', 'are not judged, since this log was not taken at the CPU: whether the CPU heard the answer above is not known, '
      + 'and to ask for the same block again is right if it did not'),
    said(belowLoads, 'message', `are not judged, since a load of the counter may explain ${belowLoads === 1 ? 'its stamp' : 'the stamps'}: `
      + 'one that was sent, or that a lost line may have been'),
    losses > 0 && lossesOf(log.judging),
    (log.stations.size > 0 ? [...log.stations.values()] : [log]).some(mayBeLate) && 'Answers may have come late or twice: fiolog check --late-answers leaves these out.',
    first !== undefined && poll < 0 ? 'The log has no poll, so it is of the middle of traffic: what breaks a rule here may be right.'
      : first < poll && 'The log begins in the middle of traffic: what breaks a rule above the first poll may be right.',
    isJudged && !hasDirections ? 'The log does not say who sent a message: each is judged as sent by the end that its type belongs to.'
      : isJudged && end === ENDS.bus && 'On the bus a message may be logged that the other end did not receive, so less can be judged than at the CPU.',
  ].filter(Boolean);
}

// Whether answers may have come late or twice.
const mayBeLate = (log) => [...log.restarts].some((place) => log.isUndue(place))
  || [...log.breaches].some(([place, breach]) => ruleOf(breach) === 'pair' && log.answersAbove(place));

// Where sync was lost, and what was not judged for it.
function lossesOf({ unjudged: { [WHY.placeLost]: count }, losses, causes }) {
  const places = Object.values(CAUSES).filter((cause) => causes.has(cause)).join(' or ');
  const left = count === 0 ? 'no message from there to the next poll was left out'
    : `${counted(count, 'message')} from there to the next poll ${count === 1 ? 'is' : 'are'} not judged`;
  return `${counted(losses, 'loss', 'losses')} of sync, at ${places}: ${left}.`;
}
