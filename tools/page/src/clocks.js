// How times are shown: those of rows, their dates, those of the record, and how long one is after another. A time is in seconds, which count
// from what its kind says, one of LOG_TIMES.

import { LOG_TIMES } from './constants.js';

const DAY = 86_400;
// A date of 1970 is one without a year.
const WITHOUT_YEAR = 365 * DAY;

// A time as a row shows it: that of the day, in UTC if it has a date, or seconds; with microseconds if they are not 0, else with milliseconds.
// Without a time it is empty.
export function clockOf(time, kind) {
  if (kind === LOG_TIMES.noTime) return '';
  if (time < 0 && kind === LOG_TIMES.sinceStart) return `-${clockOf(-time, kind)}`;
  const nearest = Math.round((time - Math.floor(time)) * 1e6), whole = Math.floor(time) + Math.floor(nearest / 1e6);
  const part = String(nearest % 1e6).padStart(6, '0').replace(/000$/, '');
  return `${kind === LOG_TIMES.sinceStart ? whole : new Date(whole * 1000).toISOString().slice(11, 19)}.${part}`;
}

// The date of a time; empty if it has none.
export function dateOf(time, kind) {
  return kind === LOG_TIMES.date ? new Date(time * 1000).toISOString().replace(/T.*/, '').slice(time < WITHOUT_YEAR ? 5 : 0) : '';
}

// How long after one time another is, in words. A log without dates may go on at midnight.
export function laterWords(from, to) {
  let seconds = to - from;
  if (seconds < -DAY / 2 && to < DAY) seconds += DAY;
  if (seconds < 0) return 'its time is before that of the command';
  return seconds < 10 ? `${(seconds * 1000).toFixed(3)} ms after the command` : `${seconds.toFixed(1)} s after the command`;
}
