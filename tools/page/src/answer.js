// The answer: whether transitions are lost, where and why. The library finds the seams of a log; here they get the words of `fiolog`.

import { dateOf } from './clocks.js';
import { LOG_TIMES } from './constants.js';
import { withCommas } from './dom.js';
import { BLOCK, CONFIGURE_INPUTS, POLL } from './library.js';
import { ANSWER, COUNTED, SEAMS } from './log_words.js';
import { rowOf } from './planning.js';

// Words with their values, of which numbers are those of COUNTED.
function filled(words, values) {
  return words.replace(/\{(\w+)\}/g, (_, name) => typeof values[name] === 'number' ? amountOf(name, values[name]) : values[name]);
}

const amountOf = (name, count) => COUNTED[name][count === 1 ? 0 : 1].replace('{count}', withCommas(count));

// The sentences that are said first of the log of a link.
export function answerOf(log) {
  const { counted } = log, { lost, missing, restarts, disbelieved } = counted;
  if (log.sign !== 0 && !log.leavesOut) return [ANSWER.unfit];
  if (counted.blocks < 2 && lost === 0) return [ANSWER.few];
  const silent = counted.passed_over + counted.unknown, isWhole = missing + silent + restarts + disbelieved === 0;
  const gaps = missing > 0 ? filled(log.leavesOut ? ANSWER.missing_empty : ANSWER.missing, { places: missing, blocks: counted.missing_blocks }) : silent > 0 ? filled(ANSWER.unknown, { places: silent }) : '';
  return [...lost > 0 ? lostOf(log) : isWhole ? wholeOf(log) : [],
    !isWhole && filled(lost > 0 ? ANSWER.rest_lost : ANSWER.rest, { share: shareOf(counted), gaps }),
    restarts > 0 && filled(ANSWER.restarts, { times: restarts }),
    disbelieved > 0 && filled(ANSWER.disbelieved, { places: disbelieved, below: log.breaches.size > 0 ? ANSWER.below : '' })].filter(Boolean);
}

// Of a log that is one stretch: when it begins and ends, and how many answers were lost.
function wholeOf(log) {
  const { counted: { transitions }, codes, summary: { unanswered } } = log, [first, last] = [codes.indexOf(BLOCK), codes.lastIndexOf(BLOCK)].map((place) => secondsOf(log, place));
  return [filled(ANSWER[['whole_none', 'whole_one'][transitions] || 'whole'], { transitions, span: first && last && filled(ANSWER.span, { first, last }) }),
    unanswered > 0 && filled(unanswered <= repeatsIn(log) ? ANSWER.again : ANSWER.silent, { answers: unanswered, polls: unanswered })];
}

// How many polls have the number of the poll before.
function repeatsIn({ codes, blocks }) {
  const numbers = blocks.filter((_, place) => codes[place] === POLL);
  return numbers.filter((number, place) => number === numbers[place - 1]).length;
}

// Where transitions are lost first, and what would be often enough.
function lostOf(log) {
  const { lost } = log.counted, [at, { has_pause: hasPause, pause }] = [...log.seams].find(([, seam]) => seam.is_lost), micro = Number(pause);
  const time = micro < 1e6 ? `${Math.floor(micro / 1000)} ms` : `${(micro / 1e6).toFixed(1)} s`;
  const place = [log.where(at), secondsOf(log, at)].filter(Boolean).join(', ');
  return [filled(lost === 1 ? ANSWER.lost_one : ANSWER.lost, { places: lost, place, pause: hasPause ? filled(ANSWER.pause, { pause: time }) : '' }), planFor(log)];
}

// The time of a message, to a second if it is one of a day; empty if it has none.
function secondsOf(log, place) {
  const kind = log.timeKinds[place], clock = log.clockOf(place);
  return kind === LOG_TIMES.sinceStart ? `${clock} s` : [dateOf(log.times[place], kind), clock.replace(/\..*/, '')].filter(Boolean).join(' ');
}

// How often to poll the inputs that configurations leave open, and which outage loses nothing; undefined if none says it.
function planFor(log) {
  const filters = new Map();
  log.codes.forEach((code, place) => {
    for (const [, input, ignore, leading, trailing] of code === CONFIGURE_INPUTS ? log.words(place).join().matchAll(/input (\d+) ignore (.) leading (\d+) trailing (\d+)/g) : []) {
      if (ignore === '0') filters.set(input, Math.min(leading, trailing));
      else filters.delete(input);
    }
  });
  if (filters.size === 0) return undefined;
  const filter = Math.min(...filters.values()), [, , every, , , , , outage] = rowOf(filters.size, Math.max(filter, 1));
  return filled(ANSWER.plan, { inputs: filters.size, filter: String(filter), every: `${every} ms`, outage: `${outage} ms` });
}

// Which share of the time is in stretches: by the times of lines, else by stamps if the counter was not loaded; else empty.
function shareOf({ timed, timed_whole: timedWhole, stamped, stamped_whole: stampedWhole, loads }) {
  const [all, whole] = timed > 0 || loads > 0 ? [timed, timedWhole] : [stamped, stampedWhole];
  return all > 0 ? filled(ANSWER.share, { share: (Math.floor(1000 * whole / all) / 10).toFixed(1) }) : '';
}

// What is said of a seam at its block.
export function seamWords({ is_lost: isLost, cause, missing }) {
  return [isLost && SEAMS[0], cause > 0 && filled(SEAMS[cause], { blocks: missing })].filter(Boolean).join('; ');
}
