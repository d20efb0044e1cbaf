// A log by the library's judge: the breaches, the restarts of the module, and how many messages are not judged, by why. A log of one
// direction no rule can judge: commands whose answers were not logged, or answers without their commands.

import { LOG_REASONS, LOG_TAKEN, OUTCOMES, WHY } from './constants.js';
import { POLL } from './library.js';
import { REASONS } from './log_words.js';
import { MARKS } from './messagelist.js';
import { each } from './slices.js';

// Where a log may have been taken.
export const ENDS = { auto: 'auto', cpu: 'cpu', module: 'module', bus: 'bus' };
const TAKEN = { auto: LOG_TAKEN.auto, cpu: LOG_TAKEN.atCpu, module: LOG_TAKEN.atModule, bus: LOG_TAKEN.onBus };
// What loses sync, in words.
export const CAUSES = { breach: 'a breach', restart: 'a restart', heading: 'a heading', load: 'a stamp that a load may explain',
  line: 'a line that may have held a message' };

export class Judging {
  constructor(log, judge) {
    // The breaches and the restarts, by the places of their messages.
    Object.assign(this, { log, judge, isLost: false, isBegun: false, breaches: new Map(), restarts: new Set() });
    // How many messages are not judged, by the number of WHY; how often sync was lost, up to the next poll, and by which of CAUSES.
    Object.assign(this, { unjudged: new Uint32Array(Object.keys(WHY).length), losses: 0, causes: new Set() });
    // What lost sync below the last message, of CAUSES: it counts if a message is below.
    this.waiting = '';
    // The polls below losses, from which judging begins anew.
    this.begunAgain = 0;
  }

  // Judges each message. Nobody is accused for what a line that gave none may have held.
  *work() {
    const { log } = this;
    const { stretches } = log.arena;
    this.judge.start(TAKEN[log.taken]);
    stretches.call('start');
    yield* each(log.count, (place) => this.take(place));
    this.takeMarks(log.marks[log.count]);
    log.counted = stretches.counts;
  }

  take(place) {
    const { log } = this, damage = log.damaged.get(place);
    this.takeMarks(log.marks[place]);
    if (damage?.isPossible) this.takePossible();
    else if (damage && (this.isBegun || damage.isBeside)) this.lose();
    if (!log.isBadLine(place)) this.takeMessage(place);
  }

  takeMarks(marks) {
    if (marks & MARKS.lost) this.lose();
    if (marks & MARKS.loss) this.judge.call('miss');
    if (marks & MARKS.heading && this.isBegun) this.lose(CAUSES.heading);
  }

  // Octets are in no message here, or another part of the log begins. A log may begin anywhere: above its first message nothing is lost.
  lose(cause = CAUSES.line) {
    this.judge.call('lose');
    this.noteBelow(cause);
  }

  // Below a message a line of no form may have been one.
  takePossible() {
    this.judge.call('possible');
    if (this.isBegun) this.noteBelow(CAUSES.line);
  }

  takeMessage(place) {
    const { log } = this;
    this.isBegun = true;
    if (this.waiting) this.countLoss(this.waiting);
    this.waiting = '';
    if (log.codes[place] === POLL) {
      this.begunAgain += this.isLost ? 1 : 0;
      this.isLost = false;
    }
    const outcome = this.judge.frame(...log.frame(place)), seam = log.arena.stretches.frame(log.address(place), log.lengths[place], log.times[place]);
    if (outcome) this.note(place, outcome);
    if (seam) log.seams.set(place, seam);
  }

  // Notes what a message is that is not kept.
  note(place, { kind, why, ...breach }) {
    if (kind === OUTCOMES.brokenContent || kind === OUTCOMES.broken) this.breaches.set(place, { ...breach, isContent: kind === OUTCOMES.brokenContent });
    else if (kind === OUTCOMES.restarted) this.restarts.add(place);
    else this.unjudged[why] += 1;
    if (kind === OUTCOMES.broken) this.noteLoss(CAUSES.breach);
    else if (kind === OUTCOMES.restarted) this.noteLoss(CAUSES.restart);
    else if (why === WHY.load) this.noteLoss(CAUSES.load);
  }

  noteBelow(cause) {
    if (!this.isLost) Object.assign(this, { isLost: true, waiting: cause });
  }

  noteLoss(cause) {
    if (!this.isLost) this.countLoss(cause);
    this.isLost = true;
  }

  countLoss(cause) {
    this.losses += 1;
    this.causes.add(cause);
  }
}

// The judging of several stations, each by its log alone, as one with the places of the whole log.
export function together(logs) {
  const sum = (of) => logs.reduce((all, log) => all + of(log.judging), 0);
  const inOrder = (name) => new Map(logs.flatMap((log) => Array.from(log[name].entries(), ([place, found]) => [log.places[place], found])).sort(([one], [other]) => one - other));
  return {
    breaches: inOrder('breaches'), restarts: new Set(inOrder('restarts').keys()), seams: inOrder('seams'),
    unjudged: Uint32Array.from(Object.keys(WHY), (_, why) => sum(({ unjudged }) => unjudged[why])),
    losses: sum(({ losses }) => losses), begunAgain: sum(({ begunAgain }) => begunAgain), causes: new Set(logs.flatMap(({ judging }) => [...judging.causes])),
  };
}

// Fewer messages do not show that a direction is missing.
const LEAST = 4;

// Counts the messages of a log to tell which directions it has.
export class Sides {
  constructor(log) {
    Object.assign(this, { log, sure: 0, sent: 0, lost: 0, hasUnread: false, polled: new Set() });
  }

  add(place) {
    const { log } = this, isSent = log.isSure(place) && log.isSent(place);
    if (log.isSure(place)) this.sure += 1;
    else if (!log.others.has(place)) this.lost += 1;
    if (log.damaged.get(place)?.why === REASONS[LOG_REASONS.unreadFrame]) this.hasUnread = true;
    if (isSent) this.sent += 1;
    if (isSent && log.codes[place] === POLL) this.polled.add(log.blocks[place]);
  }

  // A key of SIDES; empty if it has both, or too few messages.
  get kind() {
    const { sure, sent, lost, hasUnread, polled } = this;
    if (sure < LEAST || sent > 0 && sent < sure) return '';
    if (hasUnread) return 'unread';
    if (sent === 0) return 'answers';
    if (2 * lost >= sent) return 'not whole';
    return polled.size > 1 ? 'commands' : 'silent';
  }
}

// Whether no rule is judged in a log with these sides.
export const isOfOneSide = (sides) => sides !== '' && sides !== 'silent';
