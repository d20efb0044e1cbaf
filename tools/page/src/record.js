// The record that the CPU of a log has, by the proved poller: transitions in order, and gap marks where the module said
// that entries are missing. Times go on from one another, where the counter wraps, is loaded or starts anew.

import { BLOCK, HEARD, POLL } from './library.js';
import { entryOf, ruleOf } from './rules.js';
import { itemText } from './script.js';
import { firstFrom } from './waves.js';

const WRAP = 2 ** 32;
// The input of a breach that has none.
const NO_INPUT = 255;

export class Record {
  constructor(log) {
    // The items, transitions and gap marks; the lanes of inputs, with the transitions of each; those that break a rule on content.
    Object.assign(this, { log, items: [], lanes: new Map(), broken: new Set() });
    // The seams, each with the time from the block above it, the blocks taken, polls without an answer, polls that left a block out, and restarts.
    Object.assign(this, { seams: [], blocks: [], lostPolls: [], skips: [], restarts: [] });
    Object.assign(this, { offset: 0, latest: 0, isStarted: false, gaps: 0 });
    // The first item below a poll; and below which item `fio2070 record` ends, with its last line.
    Object.assign(this, { begin: null, end: null });
  }

  // How many transitions there are.
  get count() {
    return this.items.length - this.gaps;
  }

  // Takes the next message. A poll that asks for the block that was taken last changes nothing: its answer is stale. One that asks for any
  // other number than the poller's own sets the poller: the CPU of the log left a block out.
  take(place) {
    const { log } = this, { poller } = log, code = log.codes[place], mark = { place, time: this.latest };
    if (log.restarts.has(place)) {
      this.restarts.push(mark);
      this.end ||= [this.items.length, `line ${log.lines[place]} restarted`];
    }
    if (!this.isStarted && (code === POLL || code === BLOCK)) {
      poller.number = log.blocks[place];
      this.isStarted = true;
    }
    if (code === BLOCK) this.hear(place, log.content(place));
    else if (log.content(place)) this.end ||= [this.items.length, contentLine(log, place)];
    if (code !== POLL) return;
    this.begin ??= this.items.length;
    if (log.isUnanswered(place)) this.lostPolls.push(mark);
    const ahead = (log.blocks[place] - poller.number) & 255;
    if (ahead === 0 || ahead === 255) return;
    this.skips.push(mark);
    poller.number = log.blocks[place];
  }

  // Hears a block, which may break a rule on content.
  hear(place, content) {
    const { log, latest } = this, heard = log.poller.hear(log.address(place), log.lengths[place]), count = this.items.length;
    if (content) this.end ||= [count + Math.min(content.items, heard.items), contentLine(log, place)];
    if (heard.kind === HEARD.taken) {
      this.add(heard.items, place, log.stamps[place]);
      if (content && entryOf(log, place, content) >= 0) this.broken.add(this.items[count + content.items]);
    }
    if (!log.seams.has(place)) return;
    const to = this.items.slice(count).find(({ gap }) => !gap)?.time ?? this.latest;
    this.seams.push({ from: Math.min(latest, to), to, place, ...log.seams.get(place) });
  }

  // Follows the counter to the stamp of a block. A step back of more than half its range is a wrap; after any other, the
  // counter was loaded or began anew, and times go on from the latest one.
  follow(stamp) {
    const back = this.latest - (stamp + this.offset);
    if (back > 0) this.offset += back > WRAP / 2 ? WRAP : back;
    this.latest = stamp + this.offset;
  }

  // Adds the items of a block that the poller took.
  add(count, place, stamp) {
    this.follow(stamp);
    this.blocks.push({ time: this.latest, place });
    for (let index = 0; index < count; index++) {
      // An entry is at most 65,536 ms older than its block.
      const { gap: isGap, input, state, wide } = this.log.poller.recordItem(index), time = Math.max(this.latest - ((stamp - wide) >>> 0), 0);
      const item = { gap: isGap, input, state, wide, place, time };
      this.items.push(item);
      if (isGap) this.gaps += 1;
      else this.lane(input).push(item);
    }
  }

  // The transitions of an input.
  lane(input) {
    if (!this.lanes.has(input)) this.lanes.set(input, []);
    return this.lanes.get(input);
  }

  // The log's clock at a time of the record, by the latest block up to it; empty if the log has no time there.
  clockAt(time) {
    const block = this.blocks[Math.max(firstFrom(this.blocks, time + 1) - 1, 0)];
    return block ? this.log.clockOf(block.place, (time - block.time) / 1000) : '';
  }

  // The lines that `fio2070 record` writes of a log: the record, to the first breach of a rule on content or the first restart of the
  // module, where the log keeps the rules of `check`, else the line of `check`.
  get lines() {
    const { log, items } = this, [end, ...last] = this.end || [items.length];
    if (!log.checkLine.startsWith('good ')) return [log.checkLine];
    const recorded = items.slice(this.begin ?? end, end);
    return [`record ${recorded.length}`, ...recorded.map(itemText), ...last];
  }
}

// What `fio2070 record` says of a breach of a rule on content.
export function contentLine(log, place) {
  const content = log.content(place), input = content.input === NO_INPUT ? '' : `input ${content.input} `;
  return `line ${log.lines[place]} ${input}breaks ${ruleOf(content)}`;
}
