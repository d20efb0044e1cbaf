// The formulas of docs/PLANNING.md, with the clause of each.

import { BLOCK_ENTRIES, MOST_WAITING, STANDARD_WAITING } from './constants.js';

// How many entries may wait: the standard limit, and the largest.
const WAITING = [STANDARD_WAITING, MOST_WAITING];
const upTo = (number, divisor) => Math.ceil(number / divisor);
const down = (number, divisor) => Math.floor(number / divisor);
const MILLION = 1_000_000;

// How far apart polls come at most that are due every so many milliseconds by the CPU's clock, with this drift and jitter; and how
// seldom they may be due, to be no farther apart.
const farthest = (every, drift, jitter) => upTo(every * (MILLION + drift), MILLION) + jitter;
const longestDue = (apart, drift, jitter) => Math.max(down((apart - jitter) * MILLION, MILLION + drift), 0);

// The longest pace for which a block takes enough: a clean round at least every so many scans.
const longestPace = (inputs, filter) => down(BLOCK_ENTRIES * filter, inputs);

// How many scans the blocks may be behind, if so many entries may wait.
const mostBehind = (inputs, filter, waiting) => Math.max(down(waiting * filter, inputs) - (filter - 1), 0);

const largest = (count, number) => Math.max(...Array.from({ length: count }, (_, j) => number(j)));

// The most that wait, and the most scans that one is late, with blocks and filters counted whole: rounds so far apart, and
// blocks so many scans behind.
const mostWait = (inputs, filter, apart, behind) =>
  largest(filter + 1, (j) => inputs * upTo(j * apart + behind, filter) - BLOCK_ENTRIES * j);
const latest = (inputs, filter, apart, behind) =>
  behind - 1 + largest(inputs, (j) => j * apart - filter * down(BLOCK_ENTRIES * j, inputs));

// What follows for `inputs` open inputs with filters of at least `filter`, rounds due every `pace` milliseconds by the CPU's
// clock, of which `lost` in a row are lost, `waiting` entries that may wait, and an outage of so many scans.
export function planOf({ inputs, filter, pace, lost, waiting, outage, drift, jitter }) {
  const taken = longestPace(inputs, filter), kept = down(mostBehind(inputs, filter, waiting), lost > 0 ? 2 : 1);
  const longest = Math.min(taken, kept), apart = farthest(pace, drift, jitter) * (lost + 1), rounds = lost > 0 ? 2 * apart : apart;
  const after = Math.min(inputs * upTo(outage, filter), waiting), longestOutage = filter * down(waiting, inputs);
  return {
    isFewWaiting: kept < taken,
    isInTime: apart <= longest,
    startEvery: longestDue(down(longest, lost + 1), drift, jitter),
    waits: mostWait(inputs, filter, apart, rounds),
    late: latest(inputs, filter, apart, rounds),
    longestOutage,
    after,
    isRiddenOut: outage <= longestOutage,
    caughtUpIn: 1 + upTo(after, BLOCK_ENTRIES),
  };
}

// The row of docs/PLANNING.md for so many inputs and such a filter, of one clock.
export function rowOf(inputs, filter) {
  const pace = longestPace(inputs, filter);
  const plans = WAITING.map((waiting) => planOf({ inputs, filter, pace, lost: 0, waiting, outage: 0, drift: 0, jitter: 0 }));
  return [inputs, filter, pace, plans[0].waits, plans[0].late, mostWait(inputs, filter, pace, 2 * pace),
    latest(inputs, filter, pace, 2 * pace), ...plans.map((plan) => plan.longestOutage)];
}
